"""Measures how long planning and checking take, and how much memory.

For each size, as 40x2000, and each seed it writes the cluster that 'gen-cluster' makes (whole), the same with broker 0 lost (lost), the same with one
of the brokers added (added), and one with all replicas on a tenth of the brokers (tenth). It plans each for all goals, or for those of --goals, and
then checks the trace of the plan. It prints a line: which cluster, how many actions the plan has, the seconds of processor time of planning and of
checking, with reading and writing, and the peak memory in MB of either, or that of this tool where it is more.
"""
from __future__ import annotations

import argparse
import json
import os
import pathlib
import re
import subprocess
import tempfile
from typing import List, Optional, Sequence, Tuple, Union

from ..clusters import Fault
from ..words import counted
from . import ENTRY, PROGRAM

# A word of a command; the actions of a plan or what another program printed, the seconds of planning and of checking, and the memory in MB.
Word = Union[str, pathlib.Path]
Measured = Tuple[Union[int, str], float, Optional[float], float]

SIZES = ["12x120", "40x2000", "100x5000", "200x10000"]
KINDS = ["whole", "lost", "added", "tenth"]


def write_cluster(path: str, seed: int, brokers: int, partitions: int, kind: str) -> None:
    words = [ENTRY, "gen-cluster", str(seed), "--partitions", str(partitions)]
    words += ["--brokers", str(brokers - 1), "--new", "1"] if kind == "added" else ["--brokers", str(brokers)]
    words += ["--lost", "0"] if kind == "lost" else []
    words += ["--within", str(max(1, brokers // 10))] if kind == "tenth" else []
    with open(path, "wb") as file:
        subprocess.run(words, check=True, stdout=file)


def measure(words: Sequence[Word]) -> Tuple[bytes, float, float]:
    """What the words print, the seconds of processor time, and the peak memory in MB."""
    try:
        process = subprocess.Popen(words, stdout=subprocess.PIPE)
    except OSError as fault:
        raise Fault(f"{words[0]}: {fault.strerror}") from fault
    assert process.stdout is not None
    output = process.stdout.read()
    _, status, used = os.wait4(process.pid, 0)
    process.returncode = os.WEXITSTATUS(status)
    return output, used.ru_utime + used.ru_stime, used.ru_maxrss / 1024


def plan_and_check(path: str, trace: str, goals: Optional[str]) -> Measured:
    """The actions of the plan, the seconds of planning and of checking, and the peak memory."""
    chosen = ["--goals", goals, "--skip-hard-goal-check"] if goals else []
    planned, planning, most = measure([PROGRAM, "plan", path, "--trace", *chosen])
    try:
        turns = json.loads(planned)["turns"]
    except (ValueError, KeyError) as fault:
        raise Fault("the plan has no trace") from fault
    pathlib.Path(trace).write_bytes(planned)
    verdict, checking, also = measure([PROGRAM, "check", path, trace, *chosen])
    if verdict != b"good\n":
        raise Fault(f"check of {trace}: {verdict.decode(errors='replace').strip()}")
    return sum(len(turn["actions"]) for turn in turns), planning, checking, max(most, also)


def run_other(words: Sequence[str], path: str) -> Measured:
    output, seconds, memory = measure([path if word == "{}" else word for word in words])
    return output.decode(errors="replace").strip() or "-", seconds, None, memory


def read_size(text: str) -> List[int]:
    if not re.fullmatch(r"[0-9]+x[0-9]+", text):
        raise Fault(f"{text} is no size as 40x2000; --help says more")
    return [int(number) for number in text.split("x")]


def print_line(size: str, kind: str, seed: int, measured: Measured) -> None:
    actions, planning, checking, memory = measured
    told = "-" if checking is None else f"{checking:.2f}"
    print(f"{size:10} {kind:6} {seed:2} {actions!s:>8} {planning:9.2f} {told:>9} {memory:5.0f}", flush=True)


def add_arguments(parser: argparse.ArgumentParser) -> None:
    parser.add_argument("--sizes", metavar="SIZE", nargs="+", default=SIZES, help=f"brokers and partitions; by default {' '.join(SIZES)}")
    parser.add_argument("--seeds", metavar="SEED", nargs="+", type=counted, default=[1, 2, 3], help="by default 1 2 3")
    parser.add_argument("--kinds", nargs="+", default=KINDS, choices=KINDS, help="by default all of them")
    parser.add_argument("--goals", metavar="NAMES", help="plans for these goals in place of all")
    parser.add_argument(
        "--program",
        metavar="WORD",
        nargs="+",
        help="runs these words in place of planning, where {} stands for the cluster file; what they print stands for the actions, and nothing is checked",
    )


def run(arguments: argparse.Namespace) -> int:
    other = arguments.program and (arguments.program if "{}" in arguments.program else arguments.program + ["{}"])
    sizes = [(size, *read_size(size)) for size in arguments.sizes]
    print("cluster               actions  planning  checking    MB")
    with tempfile.TemporaryDirectory() as folder:
        path = os.path.join(folder, "cluster.json")
        trace = os.path.join(folder, "trace.json")
        for size, brokers, partitions in sizes:
            for kind in arguments.kinds:
                for seed in arguments.seeds:
                    write_cluster(path, seed, brokers, partitions, kind)
                    print_line(size, kind, seed, run_other(other, path) if other else plan_and_check(path, trace, arguments.goals))
    return 0
