"""Refuses each allocation of the built program in turn, one a run, and says how the runs ended.

The commands are run over small files of examples/: plan and apply for all goals, check over a trace that plan has just made, session and serve with
ten requests, which serve gets over one link.

A run has to end in one of these ways:

  - plan, apply and check with status 9, the line 'want of memory' and nothing on the output
  - session and serve with status 9 and that line behind some of their replies, each of them whole
  - session and serve with all replies, of which one is 503 and says 'want of memory'. That request was done whole, in part, or not at all:
    the replies behind it are those of a session in which just that was asked
  - as without it: nothing rested on what was refused

A line of each command says how many of its allocations were refused, and how many runs ended in which way. Before it, a line of each run that ended
in no such way says how. The status is 1 where there was one.

A C compiler is wanted, as the command cc: it compiles refuses.c, which stands beside this module, in a temporary folder.
"""
from __future__ import annotations

import argparse
import os
import pathlib
import tempfile
from collections import Counter
from typing import Counter as CounterOf, List, Optional, Union

from ..clusters import Fault
from ..words import counted
from . import PROGRAM, allocations

COMMANDS = ("plan", "apply", "check", "session", "serve")


def numbers(total: int, most: Optional[int]) -> List[int]:
    """Of the numbers from 1 on at most so many, spread evenly."""
    count = total if most is None else min(total, most)
    return [1 + at * total // count for at in range(count)]


def refuse_each(name: str, command: Union[allocations.Answer, allocations.Talk], program: allocations.Program, asked: argparse.Namespace) -> int:
    """Prints how the runs ended, and answers how many of them wrong."""
    command.run()
    total = program.asked()
    tried = numbers(total, asked.most)
    ends: CounterOf[str] = Counter()
    for number in tried:
        refusal = allocations.Refusal(number, asked.onward)
        ran = command.run(refusal)
        end = command.end_of(ran, refusal)
        ends[end or "wrong"] += 1
        if end is None:
            print(f"{name}, allocation {number} of {total}: {ran}", flush=True)
    told = ", ".join(f"{count} {end}" for end, count in ends.items())
    print(f"{name}: {len(tried)} of {total} allocations were refused, one a run: {told}", flush=True)
    return ends["wrong"]


def check(words: argparse.Namespace) -> None:
    for name in words.commands:
        if name not in COMMANDS:
            raise Fault(f"{name} is none of {', '.join(COMMANDS)}; --help says more")
    if not os.access(words.program, os.X_OK):
        raise Fault(f"no program: {words.program}")


def add_arguments(parser: argparse.ArgumentParser) -> None:
    parser.add_argument("commands", metavar="COMMAND", nargs="*", help=f"some of {', '.join(COMMANDS)}; by default all of them")
    parser.add_argument("--program", metavar="FILE", default=str(PROGRAM), help="the program, in place of the built one. It has to be linked with glibc")
    parser.add_argument("--most", metavar="N", type=counted, help="at most so many runs a command, spread over its allocations")
    parser.add_argument(
        "--onward",
        action="store_true",
        help="refuses each allocation behind the one of the run too, as where all memory is used up. Each request behind the first one that is told 503 "
        "is told so too",
    )
    parser.add_argument("--seconds", metavar="N", type=counted, default=20, help="how long a run may take; by default 20")


def run(arguments: argparse.Namespace) -> int:
    check(arguments)
    wrong = 0
    with tempfile.TemporaryDirectory() as room:
        folder = pathlib.Path(room)
        program = allocations.Program(arguments.program, folder, arguments.seconds)
        for name in arguments.commands or COMMANDS:
            wrong += refuse_each(name, allocations.command_named(name, program, folder), program, arguments)
    return 1 if wrong else 0
