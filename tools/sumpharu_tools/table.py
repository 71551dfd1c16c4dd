"""The commands of the tools: the one table of them.

A command is a module of its name. Its text is the command's help, 'add_arguments' declares what is written behind the command, and 'run' does the work
and returns the status.
"""
from __future__ import annotations

import importlib
import pathlib
from types import ModuleType
from typing import Dict, Tuple

ENTRY = "sumpharu-tools"
OPERATORS = ("from-kafka", "carry-out", "show-plan", "explain", "json-place", "gen-cluster")
# These stand in the checkout alone, and in no package.
DEVELOPERS = (
    *("wrong-bodies", "measure-gate", "measure-plans", "measure-serve", "make-manual", "make-pages", "make-package", "compare-plans"),
    *("executions", "fail-allocations", "stress-sessions", "serve-session", "soak", "random-clusters", "look-at-page"),
)


def groups() -> Dict[str, Tuple[str, ...]]:
    """The commands that there are here, by who needs them."""
    has_developers = (pathlib.Path(__file__).parent / "dev").is_dir()
    return {"for operators": OPERATORS, **({"for developers of Sumpharu": DEVELOPERS} if has_developers else {})}


def module_of(name: str) -> ModuleType:
    folder = "dev." if name in DEVELOPERS else ""
    return importlib.import_module(f"{__package__}.{folder}{name.replace('-', '_')}")


def text_of(name: str) -> str:
    """What a command says of itself; its first line says what it does."""
    return (module_of(name).__doc__ or "").strip()
