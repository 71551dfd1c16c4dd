"""Makes what 'sumpharu help' prints, the manual page, bash's completion and the tables of docs/FORMATS.md of one table.

It reads commands.py, which stands beside this module, and writes docs/help.txt, docs/help/COMMAND.txt for each command, docs/sumpharu.1,
docs/sumpharu.bash, and in docs/FORMATS.md what stands between its marks.
"""
from __future__ import annotations

import argparse
import pathlib
import re
import textwrap
from typing import Dict, Iterable, List, Optional, Tuple

from ..clusters import Fault
from . import ROOT
from .commands import COMMANDS, ENDS, EXAMPLES, NAMES, OPERANDS, OPTIONS, SUMMARY, Command, End, Option

DOCS = ROOT / "docs"
CALLS = [*(it.usage for it in COMMANDS), "help [COMMAND]", "COMMAND --help", "--help | -h | --version"]
MARK = re.compile(r"(<!-- made by make-manual: (\w+) -->\n).*?(<!-- made so far -->)", re.S)


# Texts of the help


def described(head: str, text: str, column: int) -> str:
    """A head, and its text from a column on: beside it where there is room, else below."""
    lines = textwrap.wrap(text, 80 - column, break_long_words=False, break_on_hyphens=False)
    beside = len(head) + 2 <= column
    first = [head.ljust(column) + lines[0]] if beside else [head]
    return "\n".join(first + [" " * column + line for line in lines[beside:]]) + "\n"


def usages(calls: Iterable[str]) -> str:
    return "\n".join(("usage: " if at == 0 else "       ") + f"sumpharu {call}" for at, call in enumerate(calls)) + "\n"


def with_default(option: Option) -> str:
    return f"{option.text}; by default {option.default}"


def arguments(operands: Iterable[str], options: Iterable[str]) -> str:
    said = "The arguments; options come in any order, each at most once:\n"
    rows = [(name, OPERANDS[name]) for name in operands] + [(OPTIONS[name].head, with_default(OPTIONS[name])) for name in options]
    return said + "".join(described(f"  {head}", text, 27) for head, text in rows)


def who(end: End) -> str:
    return f"{', '.join(end.commands)} {end.only}".strip()


def output_of(end: End, command: Optional[str]) -> str:
    """What is on the output, with the commands of which it is said; of one command alone these are known."""
    said = end.only if command else "" if end.commands == NAMES else who(end)
    return f"{said}: {end.output}" if said else end.output


def statuses(command: Optional[str] = None) -> str:
    """The ends of a command, or of all: a status stands once, and so does the line on the error stream that its ends share."""
    ends = [end for end in ENDS if command is None or command in end.commands or not end.commands]
    outputs = [output_of(end, command) for end in ends]
    width = max(map(len, outputs)) + 2
    lines = ["exit status   " + "on the output".ljust(width) + "on the error stream"]
    before: Optional[End] = None
    for end, output in zip(ends, outputs):
        is_first = before is None or before.status != end.status
        status = f"{end.status:3}".ljust(14) if is_first else " " * 14
        lines.append((status + output.ljust(width) + (end.line if before is None or is_first or before.line != end.line else "")).rstrip())
        before = end
    return "\n".join(lines) + "\n"


def examples(command: Optional[str] = None) -> str:
    shown = [it for it in EXAMPLES if command in (None, it.split()[0])]
    return "examples:\n" + "".join(f"  sumpharu {it}\n" for it in shown)


def help_of_all() -> str:
    operands = dict.fromkeys(name for it in COMMANDS for name in it.operands)
    options = dict.fromkeys(name for it in COMMANDS for name in it.options)
    commands = "".join(described(it.head, it.text, 12) for it in COMMANDS)
    return "\n".join([f"Sumpharu {SUMMARY}.\n", usages(CALLS), commands, arguments(operands, options), statuses(), examples()])


def help_of(command: Command) -> str:
    parts = [usages([command.usage]), described(command.head, command.text, 12), arguments(command.operands, command.options)]
    return "\n".join([*parts, statuses(command.name), examples(command.name)])


# The manual page


def roff(text: str) -> str:
    """A text of the manual page, with what has a meaning in it made plain."""
    text = text.replace("\\", "\\e").replace("-", "\\-").replace("'", "\\(aq").replace("`", "\\(ga")
    return re.sub(r"^\.", r"\\&.", text, flags=re.M)


def tagged(rows: Iterable[Tuple[str, str]]) -> str:
    return "".join(f".TP\n.B {roff(head)}\n{roff(text)}\n" for head, text in rows)


def plain(lines: Iterable[str]) -> str:
    return ".nf\n" + roff("\n".join(lines)) + "\n.fi\n"


def said_of(end: End) -> str:
    """How a run ends, in a sentence or two."""
    commands = "" if end.commands == NAMES else f"{who(end)}: "
    return f"{commands}{end.cause}. On the output: {end.output}. On the error stream: {end.line}."


def manual() -> str:
    options = [(it.head, with_default(it) + ".") for it in OPTIONS.values()]
    return (
        '.TH SUMPHARU 1 "" "" "Sumpharu"\n'
        + f".SH NAME\nsumpharu \\- {roff(SUMMARY)}\n"
        + f".SH SYNOPSIS\n{plain(f'sumpharu {it}' for it in CALLS)}"
        + f".SH COMMANDS\n{tagged((it.head, it.text + '.') for it in COMMANDS)}"
        + f".SH ARGUMENTS\nOptions come in any order, each at most once.\n{tagged((name, text + '.') for name, text in OPERANDS.items())}"
        + tagged(options)
        + f".SH EXIT STATUS\n{tagged((str(end.status), said_of(end)) for end in ENDS)}"
        + f".SH EXAMPLES\n{plain(f'sumpharu {it}' for it in EXAMPLES)}"
        + ".SH SEE ALSO\nREADME.md, docs/FORMATS.md, docs/GOALS.md, docs/GLOSSARY.md\n"
    )


# The completion

COMPLETION = """# Completion of sumpharu's arguments for bash: source this file. 'sumpharu-tools make-manual' writes it.
_sumpharu() {
    local word=${COMP_WORDS[COMP_CWORD]}
    local -A options=(
%s    )
    if [ "$COMP_CWORD" -eq 1 ]; then
        COMPREPLY=($(compgen -W "%s" -- "$word"))
        return
    fi
    if [ "${COMP_WORDS[1]}" = help ]; then
        [ "$COMP_CWORD" -ne 2 ] || COMPREPLY=($(compgen -W "${!options[*]}" -- "$word"))
        return
    fi
    if [ -z "${options[${COMP_WORDS[1]:-none}]+known}" ]; then
        COMPREPLY=()
        return
    fi
    case ${COMP_WORDS[COMP_CWORD - 1]} in
    %s)
        COMPREPLY=()
        return
        ;;
    esac
    case $word in
    -*) COMPREPLY=($(compgen -W "${options[${COMP_WORDS[1]:-none}]} --help" -- "$word")) ;;
    *) mapfile -t COMPREPLY < <(compgen -f -- "$word") ;;
    esac
}
complete -o filenames -F _sumpharu sumpharu ./sumpharu
"""


def completion() -> str:
    rows = "".join(f"        [{it.name}]='{' '.join(it.options)}'\n" for it in COMMANDS)
    valued = sorted(it.name for it in OPTIONS.values() if it.value)
    return COMPLETION % (rows, " ".join([*NAMES, "help", "--help", "--version"]), " | ".join(valued))


# The tables of docs/FORMATS.md


def cell(text: str) -> str:
    return re.sub(r"(--[a-z-]+)", r"`\1`", text.replace("`", "")) if text else ""


def row(cells: Iterable[str]) -> str:
    return "| " + " | ".join(cells) + " |\n"


def usage_block() -> str:
    return "\n" + "".join(f"    sumpharu {it.usage}\n" for it in COMMANDS) + "\n"


def options_table() -> str:
    rows = [(f"`{it.name}`", it.value, linked(it.text), it.default) for it in OPTIONS.values()]
    return row(["option", "value", "what it says", "default"]) + row(["---"] * 4) + "".join(map(row, rows))


def linked(text: str) -> str:
    return text.replace("docs/GOALS.md", "[GOALS.md](GOALS.md)")


def statuses_table() -> str:
    head = row(["status", "commands", "when", "on the output", "on the error stream"]) + row(["---"] * 5)
    return head + "".join(row([str(it.status), cell(who(it)), it.cause, quoted(it.output), quoted(it.line)]) for it in ENDS)


def quoted(text: str) -> str:
    """The program's own texts as code; what is said of a text stays plain."""
    return text if re.match(r"(the|a|its|what|nothing)\b", text) else f"`{text}`"


MADE = {"usage": usage_block, "options": options_table, "statuses": statuses_table}


def formats(text: str) -> str:
    return MARK.sub(lambda found: found[1] + MADE[found[2]]() + found[3], text)


# The files


def read(name: str) -> Optional[str]:
    try:
        return (DOCS / name).read_text(encoding="utf-8")
    except FileNotFoundError:
        return None
    except OSError as fault:
        raise Fault(f"{name}: {fault.strerror}") from fault


def write(name: str, text: str) -> None:
    try:
        (DOCS / name).parent.mkdir(exist_ok=True)
        (DOCS / name).write_text(text, encoding="utf-8")
    except OSError as fault:
        raise Fault(f"{name}: {fault.strerror}") from fault


def made_files() -> Dict[str, str]:
    page = read("FORMATS.md")
    if page is None or {found[2] for found in MARK.finditer(page)} != set(MADE):
        raise Fault("docs/FORMATS.md lacks a mark of what is made")
    helps = {f"help/{it.name}.txt": help_of(it) for it in COMMANDS}
    return {"help.txt": help_of_all(), **helps, "sumpharu.1": manual(), "sumpharu.bash": completion(), "FORMATS.md": formats(page)}


def stale_helps() -> List[pathlib.Path]:
    """Texts of the help of commands that are no more."""
    folder = DOCS / "help"
    return sorted(it for it in folder.iterdir() if it.name not in {f"{name}.txt" for name in NAMES}) if folder.is_dir() else []


def add_arguments(parser: argparse.ArgumentParser) -> None:
    parser.add_argument("--check", action="store_true", help="writes nothing, and ends with status 1 where one of them isn't what it would write")


def run(arguments: argparse.Namespace) -> int:
    made = made_files()
    if arguments.check:
        return int(any(read(name) != text for name, text in made.items()) or bool(stale_helps()))
    for name, text in made.items():
        write(name, text)
    for path in stale_helps():
        path.unlink()
    return 0
