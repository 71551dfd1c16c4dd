"""Runs many short sessions and services with threads, each of which has to end within seconds.

A session is asked once to remove one of two brokers, or what is to be done about a broker that is lost, which is to remove it, or for one more replica
of the one partition, beside 1 to 8 movers and none to two planners. A service has 1 to 4 links, each of which is closed at once, the first after such
a request. Four run at a time. So a thread that sleeps although there is work, or although all is done, is seen: its run doesn't end.

Status 1 where a run didn't end in time, or ended otherwise than it should; a line tells of each.
"""
from __future__ import annotations

import argparse
import os
import time

from ..clusters import Fault
from ..words import counted
from . import PROGRAM, stress


def add_arguments(parser: argparse.ArgumentParser) -> None:
    parser.add_argument("--program", metavar="FILE", default=str(PROGRAM), help="the program, in place of the built one")
    parser.add_argument("--sessions", metavar="N", type=counted, default=2000, help="how many sessions; by default 2000")
    parser.add_argument("--services", metavar="N", type=counted, default=200, help="how many services; by default 200")
    parser.add_argument("--seconds", metavar="N", type=counted, default=20, help="how long each may take; by default 20")


def run(arguments: argparse.Namespace) -> int:
    if not os.access(arguments.program, os.X_OK):
        raise Fault(f"no program: {arguments.program}")
    begun = time.monotonic()
    wrong = [
        *stress.sessions(arguments.program, arguments.sessions, arguments.seconds),
        *stress.services(arguments.program, arguments.services, arguments.seconds),
    ]
    for it in wrong:
        print(it)
    runs = f"{arguments.sessions} sessions and {arguments.services} services"
    print(f"{runs}, {len(wrong)} of them wrong, in {time.monotonic() - begun:.0f} seconds")
    return 1 if wrong else 0
