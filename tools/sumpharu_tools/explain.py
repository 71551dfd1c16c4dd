"""Says why a goal isn't met: which partitions or brokers break it, by how much, and what bound they break.

Where the numbers alone show that no plan at all can meet a goal, it says so. The status is 0 where each goal is met and no plan has to break it,
else 1.
"""
from __future__ import annotations

import argparse
import sys
from typing import List

from . import reasons
from .clusters import Cluster, Fault, Lists, read_cluster, read_plan
from .goals import GOALS, Goal


def wanted_goals(names: List[str]) -> List[Goal]:
    by_name = {goal.name: goal for goal in GOALS}
    for name in names:
        if name not in by_name:
            raise Fault(f"no goal is named {name}; docs/GOALS.md has their names")
    return [by_name[name] for name in names] or [goal for goal in GOALS if goal.is_hard]


def explain(goal: Goal, cluster: Cluster, lists: Lists, most: int) -> bool:
    """Prints what breaks a goal, and returns whether it is met."""
    broken = [unit for unit in goal.units(cluster, lists) if unit.excess]
    reasons_against = list(reasons.impossible(goal, cluster, lists))
    if not broken:
        print(f"{goal.name}: met" + (", but not once nothing is left on lost brokers" if reasons_against else ""))
    else:
        print(f"{goal.name}: not met, measure {sum(unit.excess for unit in broken)}")
    broken.sort(key=lambda unit: -unit.excess)
    for unit in broken[:most]:
        print(f"  {reasons.why(goal, unit, cluster, lists)}")
    if len(broken) > most:
        print(f"  and {len(broken) - most} more; --all prints them")
    for line in reasons_against:
        print(f"  no plan meets it: {line}")
    return not broken and not reasons_against


def add_arguments(parser: argparse.ArgumentParser) -> None:
    parser.add_argument("cluster", metavar="CLUSTER", help="the cluster file; - is the standard input")
    parser.add_argument("goals", metavar="GOAL", nargs="*", help="the goals that are looked at; without one all hard goals")
    parser.add_argument("--plan", metavar="PLAN", help="looks at the lists after this plan, a reassignment JSON of Kafka's")
    parser.add_argument("--all", action="store_true", help="prints all lines of a goal, of which there are at most 20 otherwise")


def run(arguments: argparse.Namespace) -> int:
    cluster, goals = read_cluster(arguments.cluster), wanted_goals(arguments.goals)
    lists = read_plan(arguments.plan, cluster) if arguments.plan else cluster.lists
    most = sys.maxsize if arguments.all else 20
    met = [explain(goal, cluster, lists, most) for goal in goals]
    return 0 if all(met) else 1
