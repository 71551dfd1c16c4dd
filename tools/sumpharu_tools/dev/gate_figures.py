"""What the merge gate costs by crate: a file of figures, and the tables that are made of it.

A file of figures has a line for each thing that all of them rest on (its name and value), and a line a crate: its name, the mark under
which it was measured, and the processor seconds of its proof, of that of its tests and of its wrong bodies, '-' where it has none.
Values are parted by tabs.
"""
from __future__ import annotations

import pathlib
from dataclasses import dataclass, field
from typing import Dict, Iterable, Iterator, List, Mapping, Optional, Tuple

from ..clusters import Fault

KINDS = ("proof", "tests", "wrong bodies")
HEADS = ("kit", "sources", "jobs")


@dataclass
class Figures:
    """Figures by crate, with the marks of the crates, and what they rest on."""

    heads: Dict[str, str]
    costs: Dict[str, Dict[str, Optional[float]]] = field(default_factory=dict)
    marks: Dict[str, str] = field(default_factory=dict)

    def take(self, line: str) -> None:
        name, *values = line.split("\t")
        if name in HEADS and len(values) == 1:
            self.heads[name] = values[0]
        else:
            self.marks[name], proof, tests, bodies = values
            self.costs[name] = {kind: None if it == "-" else float(it) for kind, it in zip(KINDS, (proof, tests, bodies))}

    def cost(self, crate: str, *kinds: str) -> Optional[float]:
        """The minutes of some kinds together, or None where the crate has none of them."""
        found = [it for it in (self.costs.get(crate, {}).get(kind) for kind in kinds or KINDS) if it is not None]
        return sum(found) / 60 if found else None

    def total(self, *kinds: str) -> float:
        return sum(self.cost(crate, *kinds) or 0 for crate in self.costs)


def line_of(crate: str, mark: str, costs: Mapping[str, Optional[float]]) -> str:
    return "\t".join([crate, mark, *("-" if costs[kind] is None else f"{costs[kind]:.2f}" for kind in KINDS)])


def read(path: pathlib.Path) -> Figures:
    figures = Figures({})
    try:
        for line in path.read_text().splitlines():
            figures.take(line)
    except (OSError, ValueError) as fault:
        raise Fault(f"{path} is no file of figures: {fault}") from fault
    if set(figures.heads) != set(HEADS):
        raise Fault(f"{path} is no file of figures")
    return figures


def told(minutes: Optional[float]) -> str:
    return "-" if minutes is None else f"{minutes:.1f}"


def row(*cells: str) -> str:
    return f"| {' | '.join(cells)} |"


def table(figures: Figures) -> Iterator[str]:
    """The processor minutes by crate, the dearest first."""
    yield row("crate", *KINDS)
    yield "|---" * (1 + len(KINDS)) + "|"
    for crate in sorted(figures.costs, key=lambda it: -(figures.cost(it) or 0)):
        yield row(crate, *(told(figures.cost(crate, kind)) for kind in KINDS))
    yield row("all of these", *(told(figures.total(kind)) for kind in KINDS))


def longest_chain(figures: Figures, below: Mapping[str, Iterable[str]]) -> str:
    """The crates one above the other whose proofs take longest together, lowest first."""
    chains: Dict[str, Tuple[float, List[str]]] = {}

    def chain(crate: str) -> Tuple[float, List[str]]:
        if crate not in chains:
            nothing: Tuple[float, List[str]] = (0, [])
            minutes, under = max((chain(it) for it in below.get(crate, ())), default=nothing, key=lambda it: it[0])
            chains[crate] = minutes + (figures.cost(crate, "proof") or 0), [*under, crate]
        return chains[crate]

    minutes, crates = max((chain(it) for it in figures.costs), key=lambda it: it[0])
    return f"longest chain of proofs, {minutes:.1f} minutes: {', '.join(crates)}"


def change(figures: Figures, crate: str, above: List[str]) -> str:
    """What a change in the crate costs, where these are the crate and all that stand on it."""
    proofs, tests, bodies = (sum(figures.cost(it, kind) or 0 for it in above) for kind in KINDS)
    own = figures.cost(crate, "wrong bodies") or 0
    told = f"proofs {proofs:.1f}, tests {tests:.1f}, its wrong bodies {own:.1f} (of all these {bodies:.1f})"
    return f"a change in {crate}, on which {len(above) - 1} stand: {told}"


# What is compared: a name, and the kinds that are added up.
COMPARED = [*((kind, [kind]) for kind in KINDS), ("proof and tests", ["proof", "tests"])]


def ratio(before: Optional[float], after: Optional[float]) -> str:
    if before is None and after is None:
        return "-"
    return f"{told(before)} to {told(after)}" + (f", {after / before:.2f}" if before and after is not None else "")


def compare(before: Figures, after: Figures) -> Iterator[str]:
    """The minutes before and after, and how many times the first the second are."""
    yield row("crate", *(name for name, _ in COMPARED))
    yield "|---" * (1 + len(COMPARED)) + "|"
    crates = {**before.costs, **after.costs}
    for crate in sorted(crates, key=lambda it: -max(before.cost(it) or 0, after.cost(it) or 0)):
        yield row(crate, *(ratio(before.cost(crate, *kinds), after.cost(crate, *kinds)) for _, kinds in COMPARED))
    yield row("all", *(ratio(before.total(*kinds), after.total(*kinds)) for _, kinds in COMPARED))
