"""Measures the processor minutes that the merge gate takes of each crate: its proof, that of its tests, and its wrong bodies.

It copies the crates to a temporary folder, all of them or those of --crates with what lies below, and runs 'rt ci CRATE' there with RT_JOBS=1, a
crate once those below it are done. rt then does one thing after another, and tells when each is done, so the time of its process and of those that
it waited for is read there. A file that no check reads, with a new mark in it, stands beside the sources of a crate that is measured, so that nothing
of it is taken from an earlier run. A crate below that isn't measured is taken from one where rt kept it, and else proved and not counted. The runs of
tests and programs aren't counted. rt keeps what it proves here too, beside what the gate proved, and of all together the latest 10 GB.

The figures are written to FILE, in processor seconds, as each crate is done: a run that was cut off goes on from there, as long as sources, kit and
the number of --jobs are the same. Figures compare where machine, load and --jobs are alike.
"""
from __future__ import annotations

import argparse
import concurrent.futures
import hashlib
import os
import pathlib
import re
import secrets
import shutil
import signal
import subprocess
import sys
import tempfile
from typing import Any, Dict, Iterable, List, NoReturn, Optional, Sequence, Set, Tuple

from ..clusters import Fault
from ..words import counted
from . import ROOT, edits, gate_figures

CostsOf = Dict[str, Optional[float]]

TICKS = os.sysconf("SC_CLK_TCK")
# A crate, or its tests, of which rt is done.
DONE = re.compile(r"rt: (\w+)(: its tests are)? (proved|NOT PROVED|is kept)\b")


def processor_seconds(process: int) -> float:
    """What the process has taken, and those that it waited for."""
    stat = pathlib.Path(f"/proc/{process}/stat").read_text().rpartition(")")[2].split()
    return sum(map(int, stat[11:15])) / TICKS


class Costs:
    """What a crate took, as the lines of a run tell it."""

    def __init__(self, crate: str) -> None:
        self.crate, self.last = crate, 0.0
        self.costs: CostsOf = dict.fromkeys(gate_figures.KINDS)

    def take(self, line: str, seconds: float) -> None:
        """Takes a line of rt, and what its process had taken when it wrote it."""
        done = DONE.match(line)
        if done and done[1] == self.crate and done[3] == "proved":
            self.costs["tests" if done[2] else "proof"] = seconds - self.last
        if line.startswith(f"rt: must-fail {self.crate}/") and self.costs["wrong bodies"] is None:
            self.costs["wrong bodies"] = seconds - self.last
        if done:
            self.last = seconds


class Measuring:
    """Crates that are measured in a copy of the repository, and what is written of them."""

    def __init__(self, path: pathlib.Path, room: pathlib.Path, figures: gate_figures.Figures) -> None:
        self.path, self.room, self.figures = path, room, figures
        self.running: Set[subprocess.Popen[str]] = set()
        self.bodies = edits.bodies_of(ROOT)

    def copy(self) -> None:
        for name in ("crates.txt", "HANDLES"):
            if (ROOT / name).exists():
                shutil.copy(ROOT / name, self.room / name)

        def leave(at: str, names: List[str]) -> List[str]:
            return [it for it in names if pathlib.Path(at).parent == ROOT / "crates" and it in ("out", "must-fail")]

        shutil.copytree(ROOT / "crates", self.room / "crates", ignore=leave)
        for crate, mark in self.figures.marks.items():
            self.mark(crate, mark)

    def mark(self, crate: str, mark: str) -> None:
        (self.room / "crates" / crate / "src/mark.md").write_text(f"{mark}\n")

    def place(self, crate: str) -> None:
        for body in self.bodies.get(crate, ()):
            folder = self.room / "crates" / crate / "must-fail"
            folder.mkdir(exist_ok=True)
            shutil.copy(body, folder / body.name)

    def run(self, crate: str) -> CostsOf:
        """Runs the gate over the crate, and returns what it took."""
        env = {**os.environ, "RT_JOBS": "1"}
        env.pop("CI", None)
        how: Dict[str, Any] = {"stdin": subprocess.DEVNULL, "stdout": subprocess.PIPE, "stderr": subprocess.STDOUT, "text": True, "errors": "replace"}
        costs, line = Costs(crate), ""
        with subprocess.Popen(["rt", "ci", crate], cwd=self.room, env=env, **how) as prover:
            self.running.add(prover)
            for line in prover.stdout or ():
                costs.take(line, processor_seconds(prover.pid))
        self.running.discard(prover)
        if prover.returncode:
            raise Fault(f"{crate}: rt ended with status {prover.returncode}: {line.strip()}")
        if costs.costs["proof"] is None or (crate in self.bodies) != (costs.costs["wrong bodies"] is not None):
            raise Fault(f"{crate}: rt didn't tell when its proof and its wrong bodies were done")
        return costs.costs

    def measure(self, crate: str) -> Tuple[str, str, CostsOf]:
        mark = secrets.token_hex(16)
        self.mark(crate, mark)
        return crate, mark, self.run(crate)

    def note(self, crate: str, mark: str, costs: CostsOf) -> None:
        line = gate_figures.line_of(crate, mark, costs)
        self.figures.take(line)
        with open(self.path, "a") as file:
            file.write(f"{line}\n")
        print(f"measured {crate}", file=sys.stderr)

    def measure_all(self, crates: List[str], jobs: int) -> None:
        """Measures crates side by side, each once those below it are done. After a fault the crates above aren't measured."""
        known = edits.crates_of(ROOT)
        waits = {crate: edits.below_of(crate, known) & {*crates} - {crate} for crate in crates}
        tasks: Set[concurrent.futures.Future[Tuple[str, str, CostsOf]]] = set()
        faults: List[Fault] = []
        with concurrent.futures.ThreadPoolExecutor(jobs) as pool:
            try:
                while True:
                    ready = [it for it in waits if not waits[it]][: jobs - len(tasks)]
                    waits = {it: others for it, others in waits.items() if it not in ready}
                    tasks |= {pool.submit(self.measure, it) for it in ready}
                    if not tasks:
                        break
                    done, tasks = concurrent.futures.wait(tasks, return_when=concurrent.futures.FIRST_COMPLETED)
                    for task in done:
                        try:
                            crate, mark, costs = task.result()
                        except Fault as fault:
                            faults.append(fault)
                            continue
                        self.note(crate, mark, costs)
                        waits = {it: others - {crate} for it, others in waits.items()}
            except BaseException:
                self.end()
                raise
        if faults:
            raise Fault("; ".join(map(str, faults)))

    def end(self) -> None:
        for prover in [*self.running]:
            prover.terminate()


def sum_of_sources() -> str:
    files = [ROOT / name for name in ("crates.txt", "HANDLES") if (ROOT / name).exists()]
    texts = [*(edits.sum_of(ROOT, crate) for crate in edits.crates_of(ROOT)), *(file.read_text() for file in files)]
    return hashlib.sha256("\0".join(texts).encode()).hexdigest()


def begin(path: pathlib.Path, jobs: int) -> gate_figures.Figures:
    """The figures that stand in the file, which is begun where there is none."""
    heads = dict(zip(gate_figures.HEADS, (edits.kit_of(), sum_of_sources(), str(jobs))))
    if not path.exists():
        path.write_text("".join(f"{name}\t{value}\n" for name, value in heads.items()))
    figures = gate_figures.read(path)
    for name, value in heads.items():
        if figures.heads[name] != value:
            raise Fault(f"{path} was begun with {name} {figures.heads[name]}, and it is {value} now: give another file")
    return figures


def measure(path: pathlib.Path, words: argparse.Namespace) -> None:
    known = edits.crates_of(ROOT)
    for crate in words.crates or ():
        if crate not in known:
            raise Fault(f"crates.txt has no crate {crate}")
    if not words.jobs:
        raise Fault("--jobs has to be above 0")
    figures = begin(path, words.jobs)
    with tempfile.TemporaryDirectory(prefix="measure-gate-") as room:
        measuring = Measuring(path, pathlib.Path(room), figures)
        measuring.copy()
        crates = [it for it in known if it not in figures.costs and it in (words.crates or known)]
        for crate in crates:
            measuring.place(crate)
        measuring.measure_all(crates, words.jobs)


def print_table(path: pathlib.Path, changes: Iterable[str]) -> None:
    figures, known = gate_figures.read(path), edits.crates_of(ROOT)
    if not figures.costs:
        raise Fault(f"{path} has no figures yet")
    for crate in changes:
        if crate not in figures.costs:
            raise Fault(f"{path} has no figures of {crate}")
    print(*gate_figures.table(figures), "", gate_figures.longest_chain(figures, known), sep="\n")
    for crate in changes:
        print(gate_figures.change(figures, crate, [it for it in figures.costs if crate in edits.below_of(it, known)]))


def print_comparison(paths: Sequence[str]) -> None:
    before, after = (gate_figures.read(pathlib.Path(path)) for path in paths)
    for name in ("kit", "jobs"):
        if before.heads[name] != after.heads[name]:
            print(f"{name}: {before.heads[name]} before, and {after.heads[name]} after\n")
    print(*gate_figures.compare(before, after), sep="\n")


def end_by(number: int, _: object) -> NoReturn:
    sys.exit(128 + number)


def check(words: argparse.Namespace) -> None:
    if bool(words.file) == bool(words.compare):
        raise Fault("a file of figures is wanted, or two behind --compare; --help says more")
    if words.changes and not words.table:
        raise Fault("--changes goes with --table; --help says more")


def add_arguments(parser: argparse.ArgumentParser) -> None:
    parser.add_argument("file", metavar="FILE", nargs="?", help="the file of figures")
    parser.add_argument("--crates", metavar="CRATE", nargs="+", help="measures these alone")
    parser.add_argument("--jobs", metavar="N", type=counted, default=1, help="how many crates are measured side by side; by default 1")
    parser.add_argument("--table", action="store_true", help="measures nothing, and prints the figures of FILE, in minutes, with the longest chain of proofs")
    parser.add_argument(
        "--changes",
        metavar="CRATE",
        nargs="+",
        default=[],
        help="with --table: what a change in each of these costs: proofs and tests of it and of all that stand on it, and the wrong bodies of it alone",
    )
    parser.add_argument(
        "--compare",
        metavar=("BEFORE", "AFTER"),
        nargs=2,
        help="prints two files beside each other, each pair with how many times the first the second is",
    )


def run(arguments: argparse.Namespace) -> int:
    check(arguments)
    for number in (signal.SIGTERM, signal.SIGHUP):
        signal.signal(number, end_by)
    if arguments.compare:
        print_comparison(arguments.compare)
        return 0
    path = pathlib.Path(arguments.file)
    if not arguments.table:
        measure(path, arguments)
    print_table(path, arguments.changes)
    return 0
