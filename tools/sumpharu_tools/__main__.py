"""The tools of Sumpharu, each of which is a command of this program."""
from __future__ import annotations

import sys
from typing import Iterable, Optional, Sequence

from .clusters import Fault
from .table import ENTRY, groups, module_of, text_of
from .words import CommandWords, Words


def listed(title: str, names: Iterable[str]) -> str:
    lines = [f"  {name:16}  {text_of(name).splitlines()[0]}" for name in names]
    return "\n".join([f"{title}:", *lines])


def parser_of(names: Iterable[str], text: str = "") -> Words:
    """The parser of these commands, whose modules are read for it."""
    parser = Words(prog=ENTRY, description=text)
    commands = parser.add_subparsers(dest="command", metavar="COMMAND", required=True, parser_class=CommandWords, help="one of those above")
    for name in names:
        module = module_of(name)
        words = commands.add_parser(name, description=text_of(name))
        module.add_arguments(words)
        words.set_defaults(run=module.run)
    return parser


def run(words: Sequence[str], name: Optional[str]) -> int:
    """Runs the command that is named, or tells of all."""
    if name is not None:
        parser = parser_of([name])
    else:
        lists = [listed(title, names) for title, names in groups().items()]
        text = "Tools around Sumpharu, which plans the partition moves of a Kafka cluster. 'COMMAND --help' says more of each."
        parser = parser_of([name for names in groups().values() for name in names], "\n\n".join([text, *lists]))
    arguments = parser.parse_args(words)
    status: int = arguments.run(arguments)
    sys.stdout.flush()
    return status


def main(words: Optional[Sequence[str]] = None) -> int:
    """Runs a command. A fault is one line, which begins with the command's name, and status 2."""
    words = sys.argv[1:] if words is None else words
    first = words[0] if words else ""
    name = first if any(first in names for names in groups().values()) else None
    try:
        return run(words, name)
    except Fault as fault:
        line = " ".join(str(fault).split("\n")).encode(errors="backslashreplace").decode()
    except UnicodeEncodeError as fault:
        line = f"a text can't be written: {fault.reason}"
    except BrokenPipeError:
        sys.stderr.close()
        return 1
    except KeyboardInterrupt:
        return 130
    print(f"{name or ENTRY}: {line}", file=sys.stderr)
    return 2


if __name__ == "__main__":
    sys.exit(main())
