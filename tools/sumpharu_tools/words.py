"""The words that a command is called with."""
from __future__ import annotations

import argparse
from typing import Any, NoReturn

from .clusters import Fault


class Words(argparse.ArgumentParser):
    """A parser whose faults are one line each."""

    def __init__(self, **how: Any) -> None:
        super().__init__(allow_abbrev=False, formatter_class=argparse.RawDescriptionHelpFormatter, **how)

    def error(self, message: str) -> NoReturn:
        raise Fault(f"{message}; --help says more")


class CommandWords(Words):
    """The parser of one command, whose operands may stand among its options."""

    is_mixing = False

    def parse_known_args(self, args: Any = None, namespace: Any = None) -> Any:
        # argparse parses operands and options apart by calls of this method, and loses what stands behind '--'
        if self.is_mixing or "--" in args:
            return super().parse_known_args(args, namespace)
        self.is_mixing = True
        try:
            return self.parse_known_intermixed_args(args, namespace)
        finally:
            self.is_mixing = False


def counted(text: str) -> int:
    """A whole number that isn't negative."""
    if not text.isdecimal():
        raise argparse.ArgumentTypeError(f"{text!r} is no number of this kind")
    return int(text)


def positive(text: str) -> int:
    number = counted(text)
    if not number:
        raise argparse.ArgumentTypeError("0 is none")
    return number
