"""Shows what a plan changes, before it is carried out.

Without an option it prints what moves, what each broker carries before and after, and each goal's measure before and after. The measures are
computed from the goals' definitions, apart from the program. A plan may make lists longer or shorter: the first line tells a replica that takes
another's place as a move, and others as added or removed.
"""
from __future__ import annotations

import argparse
import json
from typing import Collection, Iterable, List, Sequence

from . import page, plans
from .clusters import Cluster, Lists, read_cluster, read_plan


def table(head: Sequence[str], rows: Iterable[Sequence[object]], right: Collection[int] = ()) -> str:
    """The rows in columns, of which some stand to the right."""
    shown = [[str(cell) for cell in row] for row in [head, *rows]]
    widths = [max(map(len, column)) for column in zip(*shown)]
    lines = []
    for row in shown:
        cells = [cell.rjust(width) if at in right else cell.ljust(width) for at, (cell, width) in enumerate(zip(row, widths))]
        lines.append("  ".join(cells).rstrip())
    return "\n".join(lines) + "\n"


def ids(members: List[int]) -> str:
    return ",".join(map(str, members)) or "-"


def moves_table(rows: List[plans.Change]) -> str:
    head = ["partition", "before", "after", "removed", "added", "MB copied", "leader"]

    def leader(it: plans.Change) -> str:
        return f"{it.before[0]} -> {it.after[0]}" if it.has_new_leader else "stays"

    cells = [[it.partition.name, ids(it.before), ids(it.after), ids(it.removed), ids(it.added), it.megabytes, leader(it)] for it in rows]
    return table(head, cells, right=(5,))


def brokers_table(cluster: Cluster, after: Lists) -> str:
    before, later = plans.carried(cluster, cluster.lists), plans.carried(cluster, after)
    names = [name for name, *_ in plans.COLUMNS]
    cells = []
    for broker in cluster.brokers:
        numbers = [(before[name][broker.id], later[name][broker.id]) for name in names]
        told = [f"{old} -> {new}" if old != new else str(old) for old, new in numbers]
        cells.append([broker.id, broker.rack if broker.rack is not None else "-", broker.state, *told])
    return table(["broker", "rack", "state", *names], cells)


def goals_table(measured: List[plans.Measured]) -> str:
    cells = [[it.goal.name, "hard" if it.goal.is_hard else "soft", it.before, it.after, it.word] for it in measured]
    return table(["goal", "strength", "before", "after", ""], cells, right=(2, 3))


def add_arguments(parser: argparse.ArgumentParser) -> None:
    parser.add_argument("cluster", metavar="CLUSTER", help="the cluster file; - is the standard input")
    parser.add_argument("plan", metavar="PLAN", help="what 'sumpharu plan' or 'sumpharu apply' wrote for it, or another reassignment JSON of Kafka's; or -")
    forms = parser.add_mutually_exclusive_group()
    forms.add_argument(
        "--html", action="store_true", help="writes the same as one page, with a bar for each broker and resource; it needs nothing from elsewhere"
    )
    forms.add_argument("--rollback", action="store_true", help="writes the reassignment JSON that takes the plan back")


def run(arguments: argparse.Namespace) -> int:
    cluster = read_cluster(arguments.cluster)
    after = read_plan(arguments.plan, cluster)
    rows = plans.changes(cluster, after)
    if arguments.rollback:
        print(json.dumps(plans.rollback(rows), separators=(",", ":")))
    elif arguments.html:
        print(page.page_of(cluster, after, rows, plans.measures(cluster, after)))
    else:
        print(plans.summary(cluster, rows) + "\n")
        if rows:
            print(moves_table(rows))
        print(brokers_table(cluster, after))
        print(goals_table(plans.measures(cluster, after)), end="")
    return 0
