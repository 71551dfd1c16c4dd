"""Makes docs/CRATES.md, docs/DEFINITIONS.md, a few tables of other pages and the source of the service's page of what the checkout's files say.

It reads crates.txt, the head and the public names of each crate's lib.rt or main.rt, the comments above the public definitions in
crates/*/specs/*.antt, the settings of the cluster file, the refusals of the service, the first line of each tool, and web/page.html.
"""
from __future__ import annotations

import argparse

from ..clusters import Fault
from . import ROOT
from .made_pages import FILES, stale


def write(path: str, text: str) -> None:
    try:
        (ROOT / path).write_text(text, encoding="utf-8")
    except OSError as fault:
        raise Fault(f"{path}: {fault.strerror}") from fault


def add_arguments(parser: argparse.ArgumentParser) -> None:
    parser.add_argument(
        "--check", action="store_true", help="writes nothing, names each file that isn't what it would write, and ends with status 1 where there is one"
    )


def run(arguments: argparse.Namespace) -> int:
    if arguments.check:
        found = stale()
        for path in found:
            print(f"{path} is stale: run './sumpharu-tools make-pages'")
        return int(bool(found))
    for path, make in FILES.items():
        write(path, make())
    return 0
