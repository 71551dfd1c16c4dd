"""Says where a plain JSON reader stops in a file.

It prints the line and the column, both from 1, and ends with status 0. Where the reader reads the whole file it prints nothing, and the status
is 1; where the file can't be read, 2.
"""
from __future__ import annotations

import argparse
import json
from typing import NoReturn, Optional, Tuple

from .clusters import Fault


def not_json(word: str) -> NoReturn:
    raise ValueError(f"{word} is no JSON value")


def place_of(data: bytes, at: int) -> Tuple[int, int]:
    """The line and column of a byte, both from 1; a column counts characters."""
    before = data[:at]
    return before.count(b"\n") + 1, len(before[before.rfind(b"\n") + 1 :].decode(errors="replace")) + 1


def stop_of(data: bytes) -> Optional[Tuple[int, int, str]]:
    """Where a plain reader stops and why, or None."""
    try:
        text = data.decode()
    except UnicodeDecodeError as fault:
        return (*place_of(data, fault.start), "the bytes aren't UTF-8")
    try:
        json.loads(text, parse_int=len, parse_float=len, parse_constant=not_json)
    except json.JSONDecodeError as fault:
        return fault.lineno, fault.colno, fault.msg
    except ValueError as fault:
        word = str(fault).split()[0]
        return (*place_of(data, data.find(word.encode())), str(fault))
    except RecursionError:
        return 1, 1, "the values are nested too deeply"
    return None


def add_arguments(parser: argparse.ArgumentParser) -> None:
    parser.add_argument("file", metavar="FILE")


def run(arguments: argparse.Namespace) -> int:
    try:
        with open(arguments.file, "rb") as file:
            stop = stop_of(file.read())
    except OSError as fault:
        raise Fault(f"{arguments.file}: {fault.strerror}") from fault
    if stop is None:
        return 1
    line, column, why = stop
    print(f"sumpharu: a plain JSON reader stops at line {line}, column {column}: {why}")
    return 0
