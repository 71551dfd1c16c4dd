"""Tells which crates have wrong bodies that weren't tried as things stand, has the prover try them, and notes those that were refused.

A wrong body is an edit of a crate, wrong-bodies/CRATE/*.edit, that the prover has to refuse. wrong-bodies/tried.txt has the kit's identity and a line
a crate, with the sum of its sources and wrong bodies as they were when each was refused. A crate is stale where its sum or the kit's logic differs.

  list     prints the stale crates, each with the number of its wrong bodies, and how many rest on an earlier run.
  try      runs 'rt ci' over the crates named, or over the stale ones, with their wrong bodies in place. It writes the lines of
           the crates of which each wrong body was refused in this run, and of no other. Where the same was refused before on this
           machine, as by the merge gate, rt says so again without a proof. Ends with rt's status, and with 1 where a line isn't written.
  place    puts the wrong bodies of the stale crates where 'rt ci' tries them, and prints how many; for .ci/run.
  remove   takes them away; for .ci/run.
"""
from __future__ import annotations

import argparse
import contextlib
import signal
import subprocess
import sys
from typing import Any, Collection, Dict, List, NoReturn, Optional, Sequence, Tuple

from ..clusters import Fault
from . import ROOT, edits
from .edits import Bodies, State


def count_of(crates: Collection[str], bodies: Bodies) -> str:
    number = sum(len(bodies[crate]) for crate in crates)
    return f"{number} of {len(crates)} crates"


def rest_of(crates: Collection[str], bodies: Bodies) -> str:
    """What rests on an earlier run where the wrong bodies of these crates don't."""
    return count_of(bodies.keys() - crates, bodies)


def chosen(words: argparse.Namespace, kit: str) -> List[str]:
    """The crates that are named, or all, or the stale ones."""
    bodies = edits.bodies_of(ROOT)
    for crate in words.crates:
        if crate not in bodies:
            raise Fault(f"{crate} is no crate that has wrong bodies")
    if words.all:
        return [*bodies]
    return words.crates or edits.stale(ROOT, kit)


def refuse_unapplied(crates: Collection[str], bodies: Bodies) -> None:
    """Stops at a wrong body that can't be applied: the prover takes it for none, and tries nothing."""
    for body in (body for crate in crates for body in bodies[crate]):
        fault = edits.fault_of(ROOT / "crates" / body.parent.name, body.read_text())
        if fault:
            raise Fault(f"{body.relative_to(ROOT)} can't be applied: {fault}")


def list_stale(words: argparse.Namespace) -> int:
    bodies, crates = edits.bodies_of(ROOT), chosen(words, edits.kit_of())
    for crate in crates:
        print(f"{crate}: {len(bodies[crate])}")
    print(f"wrong bodies: {count_of(crates, bodies)} are to be tried, and {rest_of(crates, bodies)} rest on an earlier run")
    return 0


def place(words: argparse.Namespace) -> int:
    bodies, crates = edits.bodies_of(ROOT), chosen(words, edits.kit_of())
    refuse_unapplied(crates, bodies)
    edits.place(ROOT, crates)
    print(f"wrong bodies: {count_of(crates, bodies)} were tried in this run, and {rest_of(crates, bodies)} rest on an earlier run")
    return 0


def remove(_: argparse.Namespace) -> int:
    edits.remove(ROOT)
    return 0


# Trying


def end_by(number: int, _: object) -> NoReturn:
    """Ends the tool by an exception, so that what is under way is cleaned up."""
    sys.exit(128 + number)


def end(prover: subprocess.Popen[str]) -> None:
    """Has the prover end as by a key, or else at once."""
    for number, seconds in ((signal.SIGINT, 20), (signal.SIGTERM, None)):
        prover.send_signal(number)
        with contextlib.suppress(subprocess.TimeoutExpired):
            prover.wait(seconds)
            return


def run_prover(words: Sequence[str]) -> Tuple[int, List[str]]:
    """Runs the prover, and returns its status and the lines that it printed, which are handed on as they come."""
    pipes: Dict[str, Any] = {"stdin": subprocess.DEVNULL, "stdout": subprocess.PIPE, "text": True, "errors": "replace"}
    prover, output = subprocess.Popen(["rt", *words], cwd=ROOT, start_new_session=True, **pipes), []
    try:
        for line in prover.stdout or ():
            output.append(line)
            print(line, end="", flush=True)
        return prover.wait(), output
    except BaseException:
        end(prover)
        raise


def why_not(crate: str, bodies: Bodies, output: List[str], before: State) -> Optional[str]:
    """Why a crate gets no line, or None."""
    passed = [body.name for body in bodies[crate] if not edits.is_refused(output, crate, body)]
    if passed:
        return f"not refused in this run: {', '.join(passed)}"
    return None if before == edits.state_of(ROOT, crate) else "its files changed during the run"


def note(kit: str, crates: List[str], bodies: Bodies, output: List[str], before: Dict[str, State]) -> bool:
    """Writes the lines of the crates of which each wrong body was refused, and returns whether all are."""
    faults = {crate: why_not(crate, bodies, output, before[crate]) for crate in crates}
    refused = [crate for crate in crates if not faults[crate]]
    if refused:
        edits.write_lines(ROOT, kit, [f"{crate} {before[crate][0]}" for crate in refused])
    print(f"wrong bodies: {count_of(refused, bodies)} were refused, and the lines of these crates are written")
    for crate in crates:
        if faults[crate]:
            print(f"{crate}: no line is written: {faults[crate]}")
    return len(refused) == len(crates)


def try_bodies(words: argparse.Namespace) -> int:
    kit = edits.kit_of()
    bodies, crates = edits.bodies_of(ROOT), chosen(words, kit)
    refuse_unapplied(crates, bodies)
    if not crates:
        print("no crate is stale")
        return 0
    before = {crate: edits.state_of(ROOT, crate) for crate in crates}
    with edits.in_place(ROOT, crates):
        status, output = run_prover(["must-fail" if words.draft else "ci", *([] if words.gate else crates)])
        if words.draft:
            return status
        if edits.kit_of() != kit:
            raise Fault("the kit changed during the run: no line is written")
        is_whole = note(kit, crates, bodies, output, before)
    return status or (0 if is_whole else 1)


VERBS = {"list": list_stale, "try": try_bodies, "place": place, "remove": remove}


def check(words: argparse.Namespace) -> None:
    if words.verb != "try" and (words.crates or words.gate or words.draft):
        raise Fault(f"'{words.verb}' takes no crate, and none of --gate and --draft; --help says more")
    if (words.crates and words.all) or (words.gate and words.draft):
        raise Fault("of crates and --all, and of --gate and --draft, one may be given; --help says more")


def add_arguments(parser: argparse.ArgumentParser) -> None:
    parser.add_argument("verb", nargs="?", default="list", choices=[*VERBS], help="what is done; by default list")
    parser.add_argument("crates", metavar="CRATE", nargs="*", help="with try: the crates whose wrong bodies are tried; by default the stale ones")
    parser.add_argument("--all", action="store_true", help="takes each crate in place of the stale ones")
    parser.add_argument("--gate", action="store_true", help="runs 'rt ci' over the whole repository")
    parser.add_argument(
        "--draft",
        action="store_true",
        help="has 'rt must-fail' try, which begins with what 'rt check' kept, and writes no line: it serves while a wrong body is being written",
    )


def run(arguments: argparse.Namespace) -> int:
    check(arguments)
    for number in (signal.SIGTERM, signal.SIGHUP):
        signal.signal(number, end_by)
    return VERBS[arguments.verb](arguments)
