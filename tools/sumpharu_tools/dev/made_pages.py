"""docs/CRATES.md, docs/DEFINITIONS.md and a few tables of other pages, made of what crates.txt and the crates' and tools' own files say, and
the source that holds the service's page, made of web/page.html."""
from __future__ import annotations

import pathlib
import re
from dataclasses import dataclass, field
from functools import partial
from typing import Dict, List, Tuple

from ..clusters import Fault
from ..table import groups, text_of
from . import ROOT

DEFINED = re.compile(r"(?:[a-z]+ )*pub (?:record |data )?(?!mod )([^\s:({]+)")
PUBLIC = re.compile(r"^pub (?:use ([\w:]+?)::(?:\{([^}]*)\}|(\w+));|(?:const |type |struct |trait |enum |fn )+(\w+))", re.M)
MADE_BY = "<!-- 'sumpharu-tools make-pages' makes this page: change what it reads, and run it. -->\n"

# Where the definitions of a subject come from, in public.
SOURCES = (
    ("Kafka's replica lists, and the union of a list that is changed (as a set)", "KIP-455"),
    ("goals, acceptance by the goals before, the load model, windows of samples, phases of a task, the two ages of the detector, the review "
     "board (two-step verification), endpoints and parameters", "the public wiki of Cruise Control, and its REST API"),
    ("the form of a request, the length of its body, the framing of a reply", "RFC 9112"),
    ("the codes of replies", "RFC 9110 and RFC 6585"),
    ("the path of a request", "RFC 3986"),
    ("the pairs of a query", "the URL standard's form encoding"),
    ("JSON", "RFC 8259"),
    ("the path of a fault", "RFC 6901 (JSON pointers)"),
    ("ids of user tasks", "RFC 9562, section 5.8 (UUIDs of version 8)"),
    ("how words are split into operands and options", "clap, by its own definitions"),
)

CRATES_HEAD = """# The crates

One line a crate, lowest first: what it is, by the first sentence of its source; the crates that it uses; and the public names of its
`lib.rt`, those of other crates aside. [ARCHITECTURE.md](ARCHITECTURE.md) has a drawing of the layers, [PROVED.md](PROVED.md) the calls whose contracts carry
the promise.
"""

DEFINITIONS_HEAD = """# The definitions

The contracts are written in these words. Each crate has the definitions that its `specs/` makes public, file by file, each with the
comment that stands above it there. Names without a comment of their own stand in brackets in the row of the name above them. Fields of a
record, and names before the first comment of a file, are left out.

Where a subject has a public source, this is it. Everything else is this project's own: units and excesses of goals in whole numbers,
the order of candidates and of first faults, leases and tickets, limits, the texts of refusals.

| subject | source |
|---|---|
"""


@dataclass
class Crate:
    name: str
    heading: str
    names: List[str] = field(default_factory=list)

    @property
    def folder(self) -> pathlib.Path:
        return ROOT / "crates" / self.name

    def source(self) -> str:
        """Its lib.rt, or the main.rt of a program."""
        for name in ("lib.rt", "main.rt"):
            if (self.folder / "src" / name).exists():
                return read(self.folder / "src" / name)
        raise Fault(f"{self.name} has neither a lib.rt nor a main.rt")


def read(path: pathlib.Path) -> str:
    try:
        return path.read_text(encoding="utf-8")
    except OSError as fault:
        raise Fault(f"{path.name}: {fault.strerror}") from fault


def crates() -> List[Crate]:
    """Those of crates.txt in its order, each under the last comment line above it, with the crates that it names."""
    found, heading = [], ""
    for line in read(ROOT / "crates.txt").splitlines():
        if line.startswith("# "):
            heading = line[2:]
        head, colon, libraries = line.partition("#")[0].partition(":")
        if colon:
            found.append(Crate(head.split()[0], heading, libraries.split()))
    known = {crate.name for crate in found}
    for crate in found:
        crate.names = [name for name in crate.names if name in known]
    return found


# The crates


def first_sentence(source: str) -> str:
    """The first sentence of the lines at the head of a source, without its full stop."""
    lines = []
    for line in source.splitlines():
        if not line.startswith("//!"):
            break
        lines.append(line[3:].strip())
    text = " ".join(lines).replace("[`", "`").replace("`]", "`")
    return re.split(r"\.(?= |$)", text, maxsplit=1)[0]


def given(source: str) -> List[str]:
    """What a library gives to others: its public items and the names of its `pub use` lines, in order, without those of other crates."""
    own = set(re.findall(r"^mod (\w+);", source, re.M))
    found = []
    for path, many, one, item in PUBLIC.findall(source):
        if item or path.partition("::")[0] in own:
            found += [name.strip().rpartition(" ")[2] for name in (many or one or item).split(",") if name.strip()]
    return found


def crate_line(crate: Crate) -> str:
    source = crate.source()
    uses = f" Uses {', '.join(f'`{it}`' for it in crate.names)}." if crate.names else ""
    public = f" Public: {', '.join(f'`{it}`' for it in given(source))}." if given(source) else ""
    return f"- `{crate.name}`: {plain(first_sentence(source))}.{uses}{public}\n"


def crates_page() -> str:
    text, heading = CRATES_HEAD + MADE_BY, None
    for crate in crates():
        if crate.heading != heading:
            heading = crate.heading
            text += f"\n## {heading[0].upper()}{heading[1:]}\n\n"
        text += crate_line(crate)
    return text


# The definitions


def plain(text: str) -> str:
    """A comment as a page shows it: nothing in it is taken for a form."""
    return re.sub(r"([|*<])", r"\\\1", text)


def comment_above(lines: List[str], at: int) -> str:
    """The comment lines that stand right above a line, in one."""
    first = at
    while first and re.match(r"--(?! ?--)", lines[first - 1]):
        first -= 1
    return " ".join(line[2:].strip() for line in lines[first:at])


def head_of(lines: List[str]) -> str:
    """The comment with which a file begins."""
    last = 0
    while last < len(lines) and lines[last].startswith("--"):
        last += 1
    return comment_above(lines, last)


def definitions(lines: List[str]) -> List[Tuple[List[str], str]]:
    """The rows of a file: a name with those that follow it without a comment, and what the comment above the first says."""
    rows = []
    for at, line in enumerate(lines):
        name = DEFINED.match(line)
        if not name:
            continue
        comment = comment_above(lines, at)
        if comment:
            rows.append(([name[1]], comment))
        elif rows:
            rows[-1][0].append(name[1])
    return rows


def files_of(crate: Crate) -> List[Tuple[str, List[str]]]:
    """The files of a crate's definitions, in the order in which it lists them."""
    lib = crate.folder / "specs/Lib.antt"
    listed = re.findall(r"^(?:pub )?mod (\w+)", read(lib), re.M) if lib.exists() else []
    return [(name, read(crate.folder / f"specs/{name}.antt").splitlines()) for name in listed]


def row(names: List[str], meaning: str) -> str:
    """The first name with what its comment says, and the names that follow it without one."""
    others = f" ({', '.join(f'`{it}`' for it in names[1:])})" if names[1:] else ""
    return f"| `{names[0]}` | {plain(meaning)}{others} |\n"


def definitions_page() -> str:
    text = DEFINITIONS_HEAD + "".join(f"| {subject} | {source} |\n" for subject, source in SOURCES) + "\n" + MADE_BY
    for crate in crates():
        files = [(name, lines, definitions(lines)) for name, lines in files_of(crate)]
        if any(rows for _, _, rows in files):
            text += f"\n## {crate.name}\n"
        for name, lines, rows in files:
            if rows:
                text += f"\n### {crate.name}/specs/{name}\n\n{plain(head_of(lines))}\n\n| name | meaning |\n|---|---|\n"
                text += "".join(row(names, meaning) for names, meaning in rows)
    return text


# The tables of other pages

MARK = re.compile(r"(<!-- made by make-pages: (\w+) -->\n).*?(<!-- made so far -->)", re.S)
RANGES = {"Any": "0 to 9999.999", "FromOne": "1 to 9999.999", "ToOne": "0 to 1"}
# What each setting says.
SETTINGS = {
    "cpu.capacity.threshold": "the share of a broker's CPU that may be used",
    "network.inbound.capacity.threshold": "the same for NW_IN",
    "network.outbound.capacity.threshold": "the same for NW_OUT",
    "disk.capacity.threshold": "the same for DISK",
    "cpu.balance.threshold": "how far a broker's use of CPU may lie above the average",
    "network.inbound.balance.threshold": "the same for NW_IN",
    "network.outbound.balance.threshold": "the same for NW_OUT",
    "disk.balance.threshold": "the same for DISK",
    "replica.count.balance.threshold": "the same for the number of replicas",
    "leader.replica.count.balance.threshold": "the same for the number of leaders",
    "topic.replica.count.balance.threshold": "the same for the number of a topic's replicas",
    "min.valid.partition.ratio": "`session` and `serve`: the share of partitions that have to have a load, of the file or of samples; with fewer no request is "
    "planned, and the reply is 409 with `valid partitions: VALID of ALL`. The other commands don't use it",
    "max.replicas.per.broker": "how many replicas a broker may hold",
    "num.concurrent.partition.movements.per.broker": "how many tasks in flight may add a broker, and may remove it",
    "max.num.cluster.movements": "how many tasks in flight may move replicas",
    "num.concurrent.leader.movements": "how many tasks in flight may change a leader or the order alone",
    "partition.metrics.window.ms": "the length of a window of samples, in milliseconds",
    "num.partition.metrics.windows": "how many windows are kept",
    "min.samples.per.partition.metrics.window": "how many samples make a window's value",
    "min.valid.windows": "how many windows with a value make a partition's load",
}


def settings_rows() -> List[Tuple[str, str, str, str]]:
    """Each setting with its form, its range and its default, by the source."""
    source = read(ROOT / "crates/cluster_json/src/settings.rt")
    ratios = re.findall(r'"([a-z.]+)" => ratio\(RatioForm::(\w+), (\d+)\)', source)
    wholes = re.findall(r'"([a-z.]+)" => whole\(([\d_]+), ([\d_]+), ([\d_]+)\)', source)
    found = [(name, "ratio", RANGES[form], f"{int(default) / 100:.2f}") for name, form, default in ratios]
    return found + [(name, "whole", f"{int(least):,} to {int(most):,}", str(int(default))) for name, least, most, default in wholes]


def settings_table() -> str:
    rows = settings_rows()
    if {name for name, _, _, _ in rows} != set(SETTINGS):
        raise Fault("tools/sumpharu_tools/dev/made_pages.py needs a line for each setting of crates/cluster_json/src/settings.rt")
    head = "| name | form | range | default | what it says |\n|---|---|---|---|---|\n"
    return head + "".join(f"| `{name}` | {form} | {least} | {default} | {SETTINGS[name]} |\n" for name, form, least, default in rows)


def spelled(expression: str) -> str:
    """A text as the definitions build it: what is put in stands in capitals, by its name."""
    parts = re.findall(r'codes "([^"]*)"|\b(?!codes\b|decimal\b|review_state_text\b)([a-z]+)\b', expression)
    return "".join(text or name.upper() for text, name in parts)


def refusals() -> Dict[str, List[str]]:
    """The texts of refusals by code, in the order of the definitions."""
    found: Dict[str, List[str]] = {}
    for line in read(ROOT / "crates/rest_replies/specs/Refusals.antt").splitlines():
        row = re.match(r"(?:no_memory|\w+_refusal .+?) = (?:plain|with_id|with_number) code\.(\w+) (.*)$", line)
        if row:
            found.setdefault(row[1], []).append(spelled(row[2]))
    return {code: list(dict.fromkeys(texts)) for code, texts in found.items()}


def refusals_table() -> str:
    source = read(ROOT / "crates/rest_replies/specs/Texts.antt")
    phrases = dict(re.findall(r'^status_text code\.(\w+) = codes "([^"]+)"', source, re.M))
    known = refusals()
    rows = [(phrases[code], known[code]) for code in phrases if code in known]
    return "| code | texts |\n|---|---|\n" + "".join(f"| {phrase} | {', '.join(f'`{it}`' for it in texts)} |\n" for phrase, texts in rows)


def tools_table() -> str:
    """Each command of the tools with the first line of what it says of itself."""
    lines = [(name, text_of(name).splitlines()[0]) for names in groups().values() for name in names]
    return "| command | what it does |\n|---|---|\n" + "".join(f"| `{name}` | {plain(line)} |\n" for name, line in lines)


MADE = {"ARCHITECTURE.md": {"tools": tools_table}, "FORMATS.md": {"settings": settings_table, "refusals": refusals_table}}


def page_with_tables(name: str) -> str:
    page, tables = read(ROOT / "docs" / name), MADE[name]
    if {found[2] for found in MARK.finditer(page)} != set(tables):
        raise Fault(f"docs/{name} lacks a mark of what is made")
    return MARK.sub(lambda found: found[1] + tables[found[2]]() + found[3], page)


# The service's page

SOURCE_HEAD = """// The page of a service, made of web/page.html by `./sumpharu-tools make-pages`.

/// Its text.
"""


def page_source() -> str:
    """The service's page as a constant of a crate."""
    page = read(ROOT / "web/page.html")
    if '"###' in page:
        raise Fault("web/page.html holds what ends a raw string")
    return f'{SOURCE_HEAD}pub const PAGE: &str = r###"{page}"###;\n'


WHOLE = {"CRATES.md": crates_page, "DEFINITIONS.md": definitions_page}
# By their paths from the checkout's root.
FILES = {
    **{f"docs/{name}": page for name, page in WHOLE.items()},
    **{f"docs/{name}": partial(page_with_tables, name) for name in MADE},
    "crates/rest_replies/src/page.rt": page_source,
}


def stale(root: pathlib.Path = ROOT) -> List[str]:
    """The paths of the files that aren't what would be made now."""
    made = {path: make() for path, make in FILES.items()}
    return [path for path, text in made.items() if not (root / path).exists() or read(root / path) != text]
