"""A plan as one HTML page, which needs nothing from elsewhere."""
from __future__ import annotations

import html
from fractions import Fraction
from typing import Collection, Counter as CounterOf, Dict, Iterable, List, Optional, Tuple

from . import plans
from .clusters import NO_LIMIT, RESOURCES, Broker, Cluster, Lists
from .goals import Unit

STYLE = """
:root { color-scheme: light dark; --page: #fff; --ink: #1b2330; --soft: #5b6675; --line: #d9dee6; --track: #eef1f5; --old: #98a3b3;
  --new: #2463c4; --over: #c22f2f; --band: #2a93532e; --edge: #2a9353; --head: #f6f8fa; --chip: #e6ebf2; }
@media (prefers-color-scheme: dark) {
  :root { --page: #12161c; --ink: #e3e8ef; --soft: #9aa6b6; --line: #2c3440; --track: #1e252e; --old: #6d7a8c;
    --new: #6aa4ff; --over: #ff7a70; --band: #46b87430; --edge: #46b874; --head: #181e26; --chip: #29323e; } }
* { box-sizing: border-box; }
body { margin: 0 auto; padding: 24px; max-width: 1500px; background: var(--page); color: var(--ink); font: 14px/1.45 system-ui, sans-serif; }
h1 { font-size: 22px; margin: 0 0 4px; }
h2 { font-size: 16px; margin: 32px 0 8px; }
p { margin: 4px 0 12px; color: var(--soft); }
@media (max-width: 940px) { .wide { overflow-x: auto; } }
table { border-collapse: collapse; width: 100%; font-variant-numeric: tabular-nums; }
th, td { padding: 4px 10px; text-align: left; border-bottom: 1px solid var(--line); vertical-align: top; }
thead th { background: var(--head); font-weight: 600; position: sticky; top: 0; z-index: 1; }
thead small { display: block; font-weight: 400; color: var(--soft); }
.number { text-align: right; }
.rack th { background: var(--chip); font-size: 13px; padding: 6px 10px; }
.bars { table-layout: fixed; min-width: 880px; }
.bars td { padding: 5px 10px; }
.bars thead th:first-child { width: 112px; }
.track { position: relative; height: 13px; background: var(--track); border-radius: 2px; overflow: hidden; }
.track i { position: absolute; left: 0; height: 5px; display: block; min-width: 1px; }
.track .old { top: 1px; background: var(--old); }
.track .new { top: 7px; background: var(--new); }
.track .over { background: var(--over); }
.track b { position: absolute; top: 0; bottom: 0; }
.track .band { background: var(--band); border-left: 1px solid var(--edge); border-right: 1px solid var(--edge); }
.track .limit { width: 2px; background: var(--over); }
.track .full { width: 1px; background: var(--soft); }
.told { font-size: 12px; line-height: 1.3; color: var(--soft); }
.told strong { color: var(--ink); font-weight: 600; }
.told em { color: var(--over); font-style: normal; }
.state { display: inline-block; font-size: 10px; padding: 0 5px; margin-left: 5px; border-radius: 7px; background: var(--chip); }
.DEAD { color: var(--over); }
.better, .met { color: var(--edge); }
.worse { color: var(--over); }
del { color: var(--over); }
ins { color: var(--new); text-decoration: none; font-weight: 600; }
.key { white-space: nowrap; margin-right: 12px; }
.key .track { display: inline-block; width: 26px; height: 11px; margin-right: 5px; vertical-align: -1px; }
label { display: inline-block; margin: 0 0 8px; }
body:has(#moved:checked) tr.same { display: none; }
"""
KEYS = (
    ('<i class="old" style="top:3px;width:100%"></i>', "before"),
    ('<i class="new" style="top:3px;width:100%"></i>', "after"),
    ('<i class="over" style="top:3px;width:100%"></i>', "after, above its limit"),
    ('<b class="band" style="left:20%;width:60%"></b>', "between the bounds of the goal of balance"),
    ('<b class="limit" style="left:50%"></b>', "the most that a hard goal allows"),
    ('<b class="full" style="left:50%"></b>', "the capacity"),
)
LEGEND = "<p>" + " ".join(f'<span class="key"><span class="track">{mark}</span>{told}</span>' for mark, told in KEYS) + "</p>"


def text(value: object) -> str:
    return html.escape(str(value))


def percent(part: Fraction) -> str:
    return f"{min(max(float(part), 0.0), 1.0) * 100:.4g}%"


def bounds_of(units: Iterable[Unit]) -> Dict[Optional[int], Tuple[Fraction, Fraction]]:
    """The lower and the upper bound of each broker, in the quantity's own unit."""
    return {unit.broker: (Fraction(unit.lower, unit.scale), Fraction(unit.upper, unit.scale)) for unit in units if unit.scale}


class Column:
    """One column of bars: a quantity of all brokers, with its bounds, limit and capacity."""

    def __init__(
        self,
        cluster: Cluster,
        column: Tuple[str, str, str, Optional[str]],
        before: Dict[str, CounterOf[int]],
        after: Dict[str, CounterOf[int]],
        lists: Lists,
    ) -> None:
        self.name, self.unit, balance, limit = column
        self.before, self.after = before[self.name], after[self.name]
        self.bands = bounds_of(plans.BY_NAME[balance].units(cluster, lists))
        self.limits = {id: high for id, (_, high) in bounds_of(plans.BY_NAME[limit].units(cluster, lists)).items()} if limit else {}
        self.capacities = {}
        if self.name in RESOURCES:
            at = RESOURCES.index(self.name)
            self.capacities = {it.id: it.capacity[at] for it in cluster.brokers if it.capacity[at] < NO_LIMIT}
        if self.name in RESOURCES and not self.capacities:
            self.limits = {}
        self.most = max([1, *self.before.values(), *self.after.values(), *(int(high) for _, high in self.bands.values())])
        self.is_empty = not any(self.before.values()) and not any(self.after.values())

    def reach(self, id: int) -> Fraction:
        """What the whole width of a broker's bar stands for: the capacity where it is known and not passed, else the most that any has."""
        capacity = self.capacities.get(id)
        if not capacity:
            return Fraction(self.most) * Fraction(21, 20)
        return Fraction(max(capacity, self.before[id], self.after[id])) * Fraction(51, 50)

    def head(self) -> str:
        if self.is_empty:
            return "nothing is known"
        if not self.capacities:
            return "width: most of any broker"
        same = set(self.capacities.values())
        return f"width: capacity {same.pop():,}" if len(same) == 1 else "width: its capacity"

    def cell(self, id: int) -> str:
        if self.is_empty:
            return '<td class="cell told">-</td>'
        old, new, reach = self.before[id], self.after[id], self.reach(id)
        limit, band, capacity = self.limits.get(id), self.bands.get(id), self.capacities.get(id)
        is_over = limit is not None and new > limit
        marks = ""
        if band:
            low, high = band[0] / reach, min(band[1] / reach, Fraction(1))
            marks += f'<b class="band" style="left:{percent(low)};width:{percent(high - low)}"></b>'
        if limit is not None and limit <= reach:
            marks += f'<b class="limit" style="left:{percent(limit / reach)}"></b>'
        if capacity:
            marks += f'<b class="full" style="left:{percent(capacity / reach)}"></b>'
        bars = f'<i class="old" style="width:{percent(old / reach)}"></i><i class="new{" over" if is_over else ""}" style="width:{percent(new / reach)}"></i>'
        told = f"{old:,}" if old == new else f"{old:,} → <strong>{new:,}</strong>"
        told += f" <em>above {float(limit):,.6g}</em>" if limit is not None and is_over else ""
        return f'<td class="cell"><div class="track" title="{text(self.title(id))}">{marks}{bars}</div><span class="told">{told}</span></td>'

    def title(self, id: int) -> str:
        said = [f"broker {id}, {self.name}: {self.before[id]:,} before, {self.after[id]:,} after {self.unit}".rstrip()]
        if id in self.capacities:
            said.append(f"capacity {self.capacities[id]:,}")
        if id in self.limits:
            said.append(f"at most {float(self.limits[id]):,.6g}")
        if id in self.bands:
            said.append("balanced from {:,.6g} to {:,.6g}".format(*map(float, self.bands[id])))
        return ", ".join(said)


def by_rack(cluster: Cluster) -> List[Tuple[Optional[str], List[Broker]]]:
    """The brokers by rack, in the order of the file; those without a rack come last."""
    racks: Dict[Optional[str], List[Broker]] = {}
    for broker in cluster.brokers:
        racks.setdefault(broker.rack, []).append(broker)
    return sorted(racks.items(), key=lambda it: it[0] is None)


def broker_row(broker: Broker, columns: List[Column]) -> str:
    is_same = all(column.before[broker.id] == column.after[broker.id] for column in columns)
    state = f'<span class="state {broker.state}">{broker.state}</span>' if broker.state != "ALIVE" else ""
    cells = "".join(column.cell(broker.id) for column in columns)
    return f'<tr class="{"same" if is_same else "other"}"><td class="name">{broker.id}{state}</td>{cells}</tr>'


def bars(cluster: Cluster, after: Lists) -> str:
    before, later = plans.carried(cluster, cluster.lists), plans.carried(cluster, after)
    columns = [Column(cluster, column, before, later, after) for column in plans.COLUMNS]
    heads = "".join(f"<th>{it.name}{f', {it.unit}' if it.unit else ''}<small>{it.head()}</small></th>" for it in columns)
    groups = []
    for rack, brokers in by_rack(cluster):
        name = f"rack {text(rack)}" if rack is not None else "no rack: each broker is a rack of its own"
        rows = "".join(broker_row(broker, columns) for broker in brokers)
        groups.append(f'<tr class="rack"><th colspan="{len(columns) + 1}">{name}, {plans.plural(len(brokers), "broker")}</th></tr>{rows}')
    return f'<div class="wide"><table class="bars"><thead><tr><th>broker</th>{heads}</tr></thead><tbody>{"".join(groups)}</tbody></table></div>'


def list_of(members: List[int], others: Collection[int], mark: str) -> str:
    return ", ".join(f"<{mark}>{id}</{mark}>" if id not in others else str(id) for id in members)


def moves(rows: List[plans.Change]) -> str:
    if not rows:
        return "<p>Nothing changes.</p>"
    cells = []
    for it in rows:
        leader = f"{it.before[0]} → {it.after[0]}" if it.has_new_leader else ""
        cells.append(
            f"<tr><td>{text(it.partition.name)}</td><td>{list_of(it.before, it.after, 'del')}</td>"
            f'<td>{list_of(it.after, it.before, "ins")}</td><td class="number">{it.megabytes:,}</td><td>{leader}</td></tr>'
        )
    head = '<th>partition</th><th>before</th><th>after</th><th class="number">MB copied</th><th>leader</th>'
    return f'<div class="wide"><table><thead><tr>{head}</tr></thead><tbody>{"".join(cells)}</tbody></table></div>'


def goals(measured: List[plans.Measured]) -> str:
    cells = "".join(
        f'<tr><td>{it.goal.name}</td><td>{"hard" if it.goal.is_hard else "soft"}</td><td class="number">{it.before:,}</td>'
        f'<td class="number">{it.after:,}</td><td class="{it.word.split()[0]}">{it.word}</td></tr>'
        for it in measured
    )
    head = '<th>goal</th><th>strength</th><th class="number">before</th><th class="number">after</th><th></th>'
    return f'<div class="wide"><table><thead><tr>{head}</tr></thead><tbody>{cells}</tbody></table></div>'


def page_of(cluster: Cluster, after: Lists, rows: List[plans.Change], measured: List[plans.Measured]) -> str:
    return f"""<!DOCTYPE html>
<html lang="en"><head><meta charset="utf-8"><meta name="viewport" content="width=device-width, initial-scale=1">
<title>A plan: {text(plans.summary(cluster, rows))}</title><style>{STYLE}</style></head><body>
<h1>What the plan changes</h1>
<p>{text(plans.summary(cluster, rows))}.</p>
<h2>Brokers</h2>
{LEGEND}
<label><input type="checkbox" id="moved"> only brokers that change</label>
{bars(cluster, after)}
<h2>Partitions that change</h2>
<p>The first replica is the leader.</p>
{moves(rows)}
<h2>Goals</h2>
<p>A goal's measure is the sum of its excesses, in the goal's own units; 0 is a goal that is met. Only the goals that were planned for are
promised not to get worse.</p>
{goals(measured)}
</body></html>"""
