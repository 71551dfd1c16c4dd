"""The documents' links lead somewhere, their tables have what the sources have, and README's examples print what it shows."""
import pathlib
import re
import shutil
import subprocess
import tempfile
import unittest

from places import PROGRAM, ROOT
from sumpharu_tools import table
from sumpharu_tools.dev import made_pages
from sumpharu_tools.dev.commands import ENDS, NAMES
from sumpharu_tools.goals import GOALS

# Words that stand in texts of the program alone, and so in code; and words that stand for plainer ones.
FORBIDDEN = (
    *("can't be had", "a front of", "want of memory", "exactly where", "that can be had", "parted by", "beside"),
    *("behind it", "behind that", "behind the ", "behind them", "behind its", "is told", "are told", "contract tells", "clause tells"),
)
PAGES = [ROOT / "README.md", *sorted(ROOT.glob("docs/*.md"))]
OWN_PAGES = [page for page in PAGES if page.name not in made_pages.WHOLE]
MADE = re.compile(r"(<!-- made by [\w-]+: \w+ -->\n).*?(<!-- made so far -->)", re.S)
HEADINGS = [
    "Prove it yourself",
    "Install it",
    "Run it",
    "Drain a broker, or take leadership from it",
    "Read a plan",
    "Check a plan",
    "The service",
    "The promise",
    "Test it",
]
# The pages whose names are looked up; what they name of the outside; and words with which an example of more words begins.
CHECKED = ("ARCHITECTURE.md", "PROVED.md", "CONTRIBUTING.md", "DECISIONS.md")
OUTSIDE = {"mypy", "None", "rt", "std", "map_err", "main", "?", "u64", "ErrorKind::Interrupted", "thread::join"}
# The crates of the kit that those of crates.txt use, and the folder of its sources where it is at hand.
BELOW = {"fast_float", "json", "md5", "percent_encoding", "rand_core", "ryu", "serde", "sha1", "slab", "strsim"}
RT = shutil.which("rt")
KIT = pathlib.Path(RT).resolve().parents[1] / "rattle" if RT else None
# Numbers of the sources, by file and name, and how pages give each.
LIMITS = (
    ("cc_base/src/outside.rt", "MAX_FILE_LEN", 67108864, {"FORMATS": "UTF-8, at most 67,108,864 bytes"}),
    ("load_model/src/limits.rt", "MAX_BROKERS", 200, {"FORMATS": "At most 200 brokers"}),
    ("load_model/src/limits.rt", "MAX_TOPICS", 1000, {"FORMATS": "1,000 topics"}),
    ("load_model/src/limits.rt", "MAX_PARTS", 10000, {"FORMATS": "10,000 partitions"}),
    ("load_model/src/assign.rt", "MAX_REPLICAS", 8, {"FORMATS": "1 to 8 distinct ids", "PROVED": "one list of 1 to 8 distinct brokers"}),
    ("metric_windows/src/windows.rt", "MAX_SAMPLES", 65536, {"FORMATS": "already has 65,536 samples"}),
    ("cluster_gen/src/draws.rt", "MULTIPLIER", 1103515245, {"FORMATS": "x = (1103515245 x + "}),
    ("cluster_gen/src/draws.rt", "INCREMENT", 12345, {"FORMATS": " x + 12345) modulo 2^31"}),
    ("cluster_gen/src/partitions.rt", "TOPICS", 50, {"FORMATS": "number i / 50 of the topic `t` followed by i modulo 50"}),
    ("rest_parse/src/calls.rt", "ALERT_AGE", 900000, {"FORMATS": "`alert_ms` (default 900000)", "SERVICE": "`alert_ms` (15 minutes)"}),
    ("rest_parse/src/calls.rt", "HEAL_AGE", 1800000, {"FORMATS": "`heal_ms` (default 1800000)", "SERVICE": "`heal_ms` (30 minutes)"}),
    ("rest_stream/src/heads.rt", "MAX_HEAD", 16384, {"FORMATS": "a head of at most 16,384 bytes", "DECISIONS": "too long at 16,384 bytes"}),
    ("rest_stream/src/fields.rt", "MAX_FIELDS", 64, {"FORMATS": "and 64 fields", "DECISIONS": "More than 64 fields"}),
    ("rest_stream/src/fields.rt", "MAX_BODY", 1048576, {"FORMATS": "`Content-Length` says, at most 1,048,576"}),
    ("user_tasks/src/table.rt", "MAX_OPEN", 16, {"PROVED": "while 16 tasks or more are open", "DECISIONS": "while 16 or more are open"}),
    ("candidate_order/src/blocks.rt", "BLOCK", 2048, {"GOALS": "a broker with 2,048 replicas or more", "DECISIONS": "in blocks of 2,048"}),
    ("cc_program/src/entry.rt", "COPIERS", 129, {"DECISIONS": "one for each of 64 movers and 64 connections, and one for"}),
    ("live_service/src/service.rt", "TRIES", 16, {"SERVICE": "16 attempts in a row", "DECISIONS": "once 16 calls in a row failed"}),
    ("net_links/src/host.rt", "LAST_READS", 32, {"SERVICE": "up to 1 MiB"}),
    ("net_links/src/host.rt", "LAST_READ_BYTES", 32768, {"SERVICE": "up to 1 MiB"}),
    ("net_links/src/host.rt", "LAST_READ_SECONDS", 1, {"SERVICE": "until nothing comes for a second"}),
)
STARTERS = {"cd", "rt", "python3", "grep", "let", "POST"}
# The commands of the tools.
COMMANDS = {*table.OPERATORS, *table.DEVELOPERS}
# What the other pages name of HTTP.
ELSEWHERE = {"Allow", "Date", "Expect"}
NUMBERS = (
    *("zero", "one", "two", "three", "four", "five", "six", "seven", "eight", "nine", "ten", "eleven", "twelve", "thirteen", "fourteen"),
    *("fifteen", "sixteen", "seventeen", "eighteen", "nineteen", "twenty"),
)


def uses():
    """The libraries of each crate, by its line of crates.txt."""
    heads = [line.partition("#")[0].partition(":") for line in (ROOT / "crates.txt").read_text().splitlines()]
    return {head.split()[0]: libraries.split() for head, colon, libraries in heads if colon}


def own_text(page):
    """A page without what a tool makes in it."""
    return MADE.sub(r"\1\2", page.read_text())


def sources(crate="*"):
    """The texts of a crate's sources, without their comments."""
    return [re.sub(r"//.*", "", path.read_text()) for path in sorted(ROOT.glob(f"crates/{crate}/src/*.rt"))]


def items(texts):
    """The names that sources define: functions, types with their variants, constants and modules."""
    found = set()
    for text in texts:
        found |= set(re.findall(r"\b(?:fn|struct|enum|trait|type|const|mod|ghost) (\w+)", text))
        for body in re.findall(r"^(?:pub )?enum \w+[^{]*\{\n(.*?)^\}", text, re.M | re.S):
            found |= set(re.findall(r"^    (\w+)", body, re.M))
    return found


def methods(texts):
    """The calls of each type and trait, as `Type::call`."""
    found = set()
    for text in texts:
        for head, body in re.findall(r"^(?:pub )?((?:impl|trait)\b[^{;]*?)\{\n(.*?)^\}", text, re.M | re.S):
            calls = re.findall(r"^    (?:pub )?fn (\w+)", body, re.M)
            found |= {f"{name}::{call}" for name in re.findall(r"\b[A-Z]\w+", head) for call in calls}
    return found


def definitions():
    """The names that definitions have, with the fields of records."""
    texts = [path.read_text() for path in ROOT.glob("crates/*/specs/*.antt")]
    return {name for text in texts for name in re.findall(r"^ *(?:[a-z]+ )*pub (?:record |data )?(\w+)", text, re.M)}


def known_names():
    """Crates and libraries, what sources and definitions define, the tools' functions, and the program's words and texts."""
    texts = sources()
    tools = {name for path in ROOT.glob("tools/sumpharu_tools/**/*.py") for name in re.findall(r"^(?:def |class |(?=[A-Z_]+ = ))(\w+)", path.read_text(), re.M)}
    refused = {text for row in made_pages.refusals().values() for text in row}
    words = set(NAMES) | {name for end in ENDS for name in (end.output, end.line)} | refused
    libraries = {name for names in uses().values() for name in names}
    return set(uses()) | libraries | items(texts) | methods(texts) | definitions() | tools | words | BELOW | COMMANDS | OUTSIDE


def text_of(name):
    """A page without the ends of its lines."""
    return " ".join((ROOT / "docs" / f"{name}.md").read_text().split())


def is_path(name):
    """Whether a path is one of the repository: from its top, from docs/, or from a crate's folder; words in capitals stand for any name."""
    pattern = re.sub(r"\b[A-Z]+\b(?![.\w])", "*", name).rstrip("/")
    folders = ("", "docs/", "crates/*/", "crates/*/src/", "crates/*/specs/", "crates/*/proofs/")
    return any(next(ROOT.glob(folder + pattern), None) for folder in folders)


def code_of(page):
    """What stands as code in the text of a page."""
    return re.findall(r"`([^`\n]+)`", re.sub(r"^    .*$", "", own_text(page), flags=re.M))


def anchors(text):
    """The anchors of a page's headings, as the usual viewers make them."""
    heads = re.findall(r"^#+ (.*)$", text, re.M)
    return {re.sub(r"[^\w -]", "", head.lower()).replace(" ", "-") for head in heads}


class Documents(unittest.TestCase):
    def test_links(self):
        for page in PAGES:
            for link in re.findall(r"\]\(([^)\s]+)\)", page.read_text()):
                name, _, anchor = link.partition("#")
                target = page.parent / name if name else page
                self.assertTrue(target.exists(), f"{page.name}: {link}")
                if anchor:
                    self.assertIn(anchor, anchors(target.read_text()), f"{page.name}: {link}")

    def test_words(self):
        """The documents say in plain words what the program's own texts, which stand as code, say in theirs."""
        for page in OWN_PAGES:
            text = re.sub(r"^    .*$", "", own_text(page), flags=re.M)
            text = " ".join(re.sub(r"`[^`\n]*`", "", text).lower().split())
            found = [words for words in FORBIDDEN if words in text]
            self.assertEqual(found, [], page.name)

    def test_code_stays_on_its_line(self):
        """A text that stands as code isn't cut by the end of a line, where the other tests wouldn't find it."""
        for page in PAGES:
            lines = re.sub(r"^    .*$", "", page.read_text(), flags=re.M).splitlines()
            self.assertEqual([line for line in lines if line.count("`") % 2], [], page.name)

    def test_length(self):
        """The documents, without what tools make of them, are short enough to be read."""
        counts = {page.name: len(own_text(page).split()) for page in OWN_PAGES}
        self.assertLessEqual(sum(counts.values()), 18000, counts)

    def test_readme(self):
        text = (ROOT / "README.md").read_text()
        self.assertLess(len(text.split()), 900)
        self.assertEqual(re.findall(r"^## (.*)$", text, re.M), HEADINGS)
        self.assertEqual(len(re.findall(r"^\d+\. ", text, re.M)), 10)

    def test_names(self):
        """What stands as code in these pages exists: crates, paths, functions, types, definitions, commands and options."""
        known, unknown = known_names(), []
        files = [ROOT / "sumpharu", *ROOT.glob("tools/sumpharu_tools/**/*.py"), *ROOT.glob("tools/tests/*.py")]
        tools = "".join(path.read_text() for path in files if path.is_file())
        kit = set((ROOT / "wrong-bodies/tried.txt").read_text().splitlines()[0].split())
        for name in CHECKED:
            for code in code_of(ROOT / "docs" / name):
                first = code.split()[0]
                if " " in code:
                    is_good = code in known or first in STARTERS | COMMANDS | set(NAMES) or "/" in first and is_path(first)
                elif code.startswith("--") or "=" in code:
                    is_good = re.search(rf"{re.escape(code.partition('=')[0])}\b", tools)
                else:
                    is_good = code in known | kit or ("/" in code or "." in code) and is_path(code)
                unknown += [] if is_good else [f"{name}: {code}"]
        self.assertEqual(unknown, [])

    def test_tools(self):
        """What the pages have the tools do is one of their commands, by the one entry."""
        for page in PAGES:
            text = page.read_text()
            named = re.findall(r"(?<![\w/])(?:\./)?sumpharu-tools ([a-z-]+)", text)
            self.assertEqual([name for name in named if name not in COMMANDS], [], page.name)
            self.assertEqual(re.findall(r"\btools/(?!rows|tests|package|sumpharu_tools)[a-z-]+", text), [], page.name)

    def test_simple_names(self):
        """A single word that stands as code in the other pages is a name, or a word of a text of the program, the script or a tool."""
        files = [ROOT / "sumpharu", ROOT / "sumpharu-tools", *ROOT.glob("tools/sumpharu_tools/**/*.py")]
        texts = [path.read_text() for path in files if path.is_file()]
        for folder in ("src/*.rt", "specs/*.antt"):
            texts += re.findall(r'"([^"\n]+)"', "".join(path.read_text() for path in ROOT.glob(f"crates/*/{folder}")))
        known = known_names() | ELSEWHERE | {word for text in texts for word in re.findall(r"\w+", text)}
        for page in (page for page in OWN_PAGES if page.name not in CHECKED):
            words = [code for code in code_of(page) if re.fullmatch(r"[A-Za-z]\w*", code)]
            self.assertEqual([word for word in words if word not in known], [], page.name)

    def test_options(self):
        """Each option that a page names is one of the program, the script or a tool, and each example is there; other programs' aside."""
        files = [ROOT / "sumpharu", ROOT / "sumpharu-tools", *ROOT.glob("tools/sumpharu_tools/**/*.py")]
        tools = "".join(path.read_text() for path in files if path.is_file())
        for page in OWN_PAGES:
            text = re.sub(r"^    (?:curl|kafka-).*$|`(?:rt|curl|kafka-\S+\.sh) [^`]*`", "", own_text(page), flags=re.M)
            options = set(re.findall(r"(?<![\w-])--[a-z][a-z-]*", text))
            self.assertEqual([it for it in sorted(options) if not re.search(rf"{it}(?![\w-])", tools)], [], page.name)
            examples = re.findall(r"\bexamples/[\w.-]*\w", text)
            self.assertEqual([it for it in examples if not (ROOT / it).exists()], [], page.name)

    def test_how_tos(self):
        """A how-to names each file, but tests, that has what its example added."""
        page = (ROOT / "docs/CONTRIBUTING.md").read_text()
        examples = {
            "How to add a goal": r"LeaderBytesIn|leader_in_goal",
            "How to add a setting of the cluster file": r"min\.valid\.partition\.ratio|min\.valid\.windows",
            "How to add an endpoint with a new event of the core": r"\b(?:[eE]vent(?:\.|::)Look|[cC]all(?:\.|::)Detect|[eE]ndpoint(?:\.|::)Detect)\b",
        }
        files = [path for folder in ("src", "specs", "proofs") for path in ROOT.glob(f"crates/*/{folder}/**/*") if path.suffix in (".rt", ".antt")]
        files = [path for path in files if "_tests/" not in str(path)] + list(ROOT.glob("tools/sumpharu_tools/**/*.py"))
        for title, pattern in examples.items():
            part = page.partition(f"\n## {title}\n")[2].partition("\n## ")[0]
            touched = [path.relative_to(ROOT) for path in files if re.search(pattern, path.read_text())]
            self.assertGreater(len(touched), 5, title)
            named = [path for path in touched if f"`{path}`" in part or f"`{path.name}`" in part and f"/{path.parts[1]}/" in part]
            self.assertEqual([str(path) for path in touched if path not in named], [], title)

    def test_calls(self):
        """Each call of PROVED's table is one of its crate."""
        rows = re.findall(r"^\| `(\w+)` \| (`.+?`) \| .+ \|$", (ROOT / "docs/PROVED.md").read_text(), re.M)
        self.assertGreater(len(rows), 50)
        for crate, calls in rows:
            found = items(sources(crate)) | methods(sources(crate))
            for call in re.findall(r"`([^`]+)`", calls):
                self.assertIn(call, found, f"{crate}: {call}")

    def test_crates(self):
        """PROVED names each crate, those that the program isn't made of in a sentence of their own, and each library that is trusted."""
        text = (ROOT / "docs/PROVED.md").read_text()
        below, used, left = uses(), set(), ["sumpharu"]
        while left:
            name = left.pop()
            left += [it for it in below.get(name, ()) if it in below and it not in used]
            used.add(name)
        tests = text.partition("\nThese crates are tests:")[2].partition("\n\n")[0]
        self.assertEqual(set(re.findall(r"`(\w+)`", tests)), set(below) - used)
        self.assertEqual([name for name in below if f"`{name}`" not in text], [])
        trusted = text.partition("\n## What is trusted\n")[2].partition("\n## ")[0]
        libraries = {lib for libs in below.values() for lib in libs} - set(below)
        self.assertEqual([lib for lib in sorted(libraries | BELOW) if f"`{lib}`" not in trusted], [])
        adapters = {name for name in items(sources()) if re.match(r"Host\w", name)}
        self.assertEqual(set(re.findall(r"`(Host\w+)`", trusted)), adapters)

    @unittest.skipUnless(KIT and KIT.is_dir(), "the kit's sources aren't at hand")
    def test_kit(self):
        """The kit's crates that are trusted are those of crates.txt, with all that these use."""
        known = {path.stem for path in KIT.parent.glob("rlibs/*.rlib")}
        known -= {name for name in known if re.match(r"std|core$|os$", name)}
        named = {lib for libs in uses().values() for lib in libs} - set(uses())
        found, left = set(), sorted(named)
        while left:
            name = left.pop()
            found.add(name)
            texts = [path.read_text() for path in KIT.glob(f"{name}/src/**/*.rt") if path.stem != "tests"]
            used = {it for text in texts for it in re.findall(r"^(?:pub )?use (\w+)", text, re.M)}
            left += sorted((used & known) - found)
        self.assertEqual(found - named, BELOW)

    def test_limits(self):
        """A limit that a page gives is the number of the sources."""
        for path, name, value, pages in LIMITS:
            found = re.search(rf"\bconst {name}: \w+ = ([\d_]+);", (ROOT / "crates" / path).read_text())
            self.assertEqual(int(found[1]), value, f"{path}: {name}")
            for page, words in pages.items():
                self.assertIn(words, text_of(page), f"{path}: {name}")

    def test_kafka(self):
        """KAFKA gives the versions of messages, the codes of a refusal and the statuses that the tools have."""
        page, lib = text_of("KAFKA"), ROOT / "tools/sumpharu_tools"
        messages = re.findall(r'Message\("(\w+)", \d+, (\d+)', (lib / "kafka_wire.py").read_text())
        self.assertGreater(len(messages), 9)
        self.assertEqual([f"{name} {version}" for name, version in messages if f"{name} {version}" not in page], [])
        self.assertIn(f"never taken {re.search(r'^REFUSALS = (.*)$', (lib / 'carrying.py').read_text(), re.M)[1]}", page)
        tool = (lib / "carry_out.py").read_text()
        rows = re.findall(r"^\| (\d+) \|", (ROOT / "docs/KAFKA.md").read_text(), re.M)
        self.assertEqual(rows, re.findall(r"^  (\d+) +\w", tool.partition("It ends with status\n")[2].partition('"""')[0], re.M))

    def test_answers(self):
        """SERVICE's tables of answers have texts that the service gives, each with its code."""
        rows = re.findall(r"^\| (\d{3}) (`.+?`)[^|]*\|", (ROOT / "docs/SERVICE.md").read_text(), re.M)
        known = {code: set(texts) for code, texts in made_pages.refusals().items()}
        phrases = dict(re.findall(r'^status_text code\.(\w+) = codes "(\d+)', (ROOT / "crates/rest_replies/specs/Texts.antt").read_text(), re.M))
        refused = {(number, text) for code, number in phrases.items() for text in known.get(code, ())}
        named = [(code, text) for code, texts in rows for text in re.findall(r"`([^`]+)`", texts) if code not in ("200", "202")]
        self.assertGreater(len(named), 8)
        self.assertEqual([row for row in named if row not in refused], [])

    def test_drawing(self):
        """Each crate stands in the drawing of the layers once, and uses crates of its own row and of rows below it."""
        text = (ROOT / "docs/ARCHITECTURE.md").read_text().partition("\n## The layers\n")[2].partition("\nA crate has")[0]
        rows, below = {}, uses()
        for line in re.findall(r"^    (.*)$", text, re.M):
            label, names = line[:13].strip(), line[13:].split()
            row = len(set(rows.values())) if label else max(rows.values(), default=0)
            for name in set(names) - {"|"}:
                self.assertIn(name, below)
                self.assertNotIn(name, rows)
                rows[name] = row
        self.assertEqual(set(rows), set(below))
        tests = max(rows.values())
        for name, row in rows.items():
            used = [it for it in below[name] if it in below]
            wrong = [it for it in used if row != tests and not row <= rows[it] < tests]
            self.assertEqual(wrong, [], f"{name} uses what stands above it, or a test")

    def test_numbers(self):
        """A number of goals or of crates is that of the sources; of wrong bodies and rows no number is given."""
        counts = {"goals": len(GOALS), "crates": len(uses())}
        for page in OWN_PAGES:
            text = " ".join(page.read_text().split()).lower()
            for number, what in re.findall(r"\b(\w+) (goals|crates|wrong bodies|edits|rows|command lines|replies)\b", text):
                if number.isdecimal() or number in NUMBERS:
                    value = int(number) if number.isdecimal() else NUMBERS.index(number)
                    self.assertEqual(value, counts.get(what), f"{page.name}: {number} {what}")

    def test_made_pages(self):
        """The files that make-pages makes are what it would make now."""
        self.assertEqual(made_pages.stale(), [], "run './sumpharu-tools make-pages'")

    def test_stale_pages_are_found(self):
        with tempfile.TemporaryDirectory() as room:
            self.assertEqual(made_pages.stale(pathlib.Path(room)), list(made_pages.FILES))

    def test_definitions_of_a_file(self):
        """A comment is the meaning of what stands right below it, and of the names without one that follow."""
        lines = "-- A head\n-- in two lines.\nuse a.b.{c}\npub record Lone : Type where\n  pub field : N\n\n-- one\n-- two\nabbrev pub x : N\nx = 1\n\n"
        lines += "-- ---- a part\n\nunfoldable pub y {A : N} : N\n-- three\npub data Z : Type where\n-- hidden\nabbrev z : N\n"
        lines = lines.splitlines()
        self.assertEqual(made_pages.head_of(lines), "A head in two lines.")
        self.assertEqual(made_pages.definitions(lines), [(["x", "y"], "one two"), (["Z"], "three")])

    def test_lines_of_crates(self):
        source = "//! What it is, as [`A`] says: all. More.\n#![tactic(auto)]\n\nmod a;\n\npub use a::{\n    A, b as c,\n};\npub use other::D;\npub fn e()\n"
        self.assertEqual(made_pages.first_sentence(source), "What it is, as `A` says: all")
        self.assertEqual(made_pages.given(source), ["A", "c", "e"])

    def test_made_pages_have_all(self):
        """Each crate has its line, in the order of crates.txt, and each public definition with a comment its row."""
        lines = re.findall(r"^- `(\w+)`: .+\.$", (ROOT / "docs/CRATES.md").read_text(), re.M)
        self.assertEqual(lines, list(uses()))
        page = (ROOT / "docs/DEFINITIONS.md").read_text()
        rows = re.findall(r"^\| (`.+`) \| .+ \|$", page, re.M)
        named = {name for row in rows for name in re.findall(r"`([^`]+)`", row)}
        files = [path.read_text() for path in ROOT.glob("crates/*/specs/*.antt")]
        commented = r"^--(?! --).*\n(?:[a-z]+ )?pub (?:record |data )?([^\s:({]+)"
        wanted = {name for text in files for name in re.findall(commented, text, re.M)}
        self.assertGreater(len(wanted), 1000)
        self.assertEqual(wanted - named, set())

    def test_goals(self):
        rows = re.findall(r"^\| (\w+Goal) \| (.*)$", (ROOT / "docs/GOALS.md").read_text(), re.M)
        named = [name for name, _ in rows]
        self.assertEqual([name for name in dict.fromkeys(named)], [goal.name for goal in GOALS])

    def test_goals_are_those_of_the_program(self):
        text = (ROOT / "crates/goal_set/src/kinds.rt").read_text()
        rows = [(name, hard == "true") for name, hard in re.findall(r'name: "(\w+)",\s*hard: (\w+),', text)]
        self.assertEqual(rows, [(goal.name, goal.is_hard) for goal in GOALS])
        page = (ROOT / "docs/GOALS.md").read_text()
        for title, is_hard in (("Hard", True), ("Soft", False)):
            part = page.partition(f"## {title} goals\n")[2].partition("\n## ")[0]
            self.assertEqual(re.findall(r"^\| (\w+Goal) \|", part, re.M), [name for name, hard in rows if hard == is_hard])

    def test_formats_name_what_the_program_knows(self):
        page = (ROOT / "docs/FORMATS.md").read_text()
        settings = set(re.findall(r'"([a-z]+(?:\.[a-z]+)+)"', (ROOT / "crates/cluster_json/src/settings.rt").read_text()))
        self.assertEqual(set(re.findall(r"^\| `([a-z]+(?:\.[a-z]+)+)` \|", page, re.M)), settings)
        refusals = page.partition("## Refusals\n")[2].partition("\n## ")[0]
        texts = "".join((ROOT / f"crates/{crate}/specs/Texts.antt").read_text() for crate in ("cluster_json", "plan_terms"))
        known = set(re.findall(r'^(?:case|fault)_text .*codes "(\w+)', texts, re.M)) - {"Memory"}
        self.assertEqual(set(re.findall(r"^\| `(\w+)", refusals, re.M)), known)
        kinds = set(re.findall(r'^fault_name .*codes "(\w+)"', (ROOT / "crates/plan_check/specs/Names.antt").read_text(), re.M))
        self.assertEqual(set(re.findall(r"^\| `([A-Z]+_?[A-Z]+_?[A-Z]*)` \|", page, re.M)) - {"NOT_A_TRACE"}, kinds)

    def test_formats_name_the_requests(self):
        """The page has each path and parameter of a request, and its table of requests no other parameter."""
        texts = {name: (ROOT / f"crates/rest_parse/specs/{name}.antt").read_text() for name in ("Routes", "Reviews", "Parameters", "ReviewPairs")}
        page = (ROOT / "docs/FORMATS.md").read_text().partition("\n## Requests of the service\n")[2].partition("\n## ")[0]
        named = set(re.findall(r"`([^`\n]+)`", page))
        paths = set(re.findall(r'codes "(/[\w/]+)"', texts["Routes"] + texts["Reviews"]))
        ends = {name.split()[-1].rpartition("/")[2] for name in named}
        self.assertEqual([path for path in sorted(paths) if path.rpartition("/")[2] not in ends], [])
        parameters = set(re.findall(r'codes "(\w+)"', texts["Parameters"] + texts["ReviewPairs"])) - {"true", "false"}
        self.assertEqual(sorted(parameters - named), [])
        rows = re.findall(r"^\| `(?:GET|POST) .*? \| (.*) \|$", page, re.M)
        self.assertEqual({name for row in rows for name in re.findall(r"`(\w+)`", row)} - parameters, set())

    def test_formats_name_the_replies(self):
        """The page has each member, state and status of a reply."""
        page = (ROOT / "docs/FORMATS.md").read_text().partition("\n## Replies of the service\n")[2]
        bodies, texts = ((ROOT / f"crates/rest_replies/specs/{name}.antt").read_text() for name in ("Bodies", "Texts"))
        states = re.findall(r'^(?:task_status|executor_state|review_state|status)_text .*codes "([^"]+)"', texts, re.M)
        told = {*re.findall(r'codes "([^"]+)"', bodies), *states}
        self.assertGreater(len(told), 60)
        self.assertEqual([text for text in sorted(told) if not re.search(rf"\b{re.escape(text)}\b", page)], [])

    @unittest.skipUnless(PROGRAM.exists(), "the program isn't built")
    def test_examples(self):
        """Each command of README that a line of output follows after an empty line prints that line."""
        pairs = re.findall(r"^    \./sumpharu (\w+ .*)\n\n    (\S.*)\n", (ROOT / "README.md").read_text(), re.M)
        self.assertTrue(len(pairs) >= 3)
        for words, line in pairs:
            ran = subprocess.run([PROGRAM, *words.split()], cwd=ROOT, capture_output=True, text=True, timeout=60)
            self.assertEqual((ran.returncode, ran.stdout, ran.stderr), (0, line + "\n", ""))


if __name__ == "__main__":
    unittest.main()
