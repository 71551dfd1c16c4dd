"""The table of commands says what the program's sources take and give."""
import re
import subprocess
import unittest

from places import PROGRAM, ROOT
from sumpharu_tools.dev.commands import COMMANDS, ENDS, EXAMPLES, NAMES, OPERANDS, OPTIONS

WORDS = ROOT / "crates/command_words/src"
QUIET = ROOT / "crates/quiet_commands/src"
LIVE = ROOT / "crates/cc_program/src"


def bodies(text, pattern):
    """The bodies of the functions whose name matches, by what the pattern's group has."""
    found = re.finditer(rf"fn {pattern}\b.*?\n\{{\n(.*?)\n\}}", text, re.S)
    return {it[1]: it[2] for it in found}


def arguments():
    """Each argument's function as clap is told it: its name, and what stands for its value; or that it is an operand."""
    found = {}
    for name, body in bodies((WORDS / "arguments.rt").read_text(), r"(\w+)").items():
        word = re.search(r'Arg::new\(alloc, "([^"]+)"\)', body)[1]
        long = re.search(r'\.long\("([^"]+)"\)', body)
        default = re.search(r'\.default_value\("([^"]+)"\)', body)
        found[name] = {"name": f"--{long[1]}" if long else word, "is_flag": "SetTrue" in body, "default": default and default[1]}
    return found


def commands():
    """The arguments of each command that the words know, in order."""
    known = arguments()
    found = {}
    for body in bodies((WORDS / "builders.rt").read_text(), r"(\w+)_command").values():
        name = re.search(r'Command::new\(alloc, "([^"]+)"\)', body)[1]
        if "subcommand" not in body:
            found[name] = [known[it] for it in re.findall(r"arguments::(\w+)\(alloc\)", body)]
    return found


class Commands(unittest.TestCase):
    def test_commands_are_those_that_the_program_runs(self):
        text = (QUIET / "commands.rt").read_text() + (LIVE / "lives.rt").read_text()
        run = {name.lower() for name in re.findall(r"^ +Command::(\w+) \{", text, re.M)}
        self.assertEqual(set(NAMES), run, "tools/sumpharu_tools/dev/commands.py needs a row for each command; then run './sumpharu-tools make-manual'")

    def test_arguments_are_those_of_the_words(self):
        known = commands()
        self.assertGreaterEqual(set(known), set(NAMES))
        for command in COMMANDS:
            words = known[command.name]
            self.assertEqual([it["name"] for it in words if not it["name"].startswith("--")], list(command.operands))
            options = [it for it in words if it["name"].startswith("--")]
            self.assertEqual({it["name"] for it in options}, set(command.options), command.name)
            for it in options:
                option = OPTIONS[it["name"]]
                self.assertEqual(option.value == "", it["is_flag"], it["name"])
                self.assertIn(it["default"], (None, option.default))

    def test_nothing_is_told_of_what_no_command_has(self):
        self.assertEqual({name for command in COMMANDS for name in command.options}, set(OPTIONS))
        self.assertEqual({name for command in COMMANDS for name in command.operands}, set(OPERANDS))
        self.assertEqual({it.split()[0] for it in EXAMPLES}, set(NAMES))

    def test_statuses_and_lines_are_those_of_the_program(self):
        text = (QUIET / "ends.rt").read_text()
        statuses = {name: int(number) for name, number in re.findall(r"End::(\w+)(?:\(_\))? => (\d+),", text)}
        lines = dict(re.findall(r'End::(\w+) => b"([^"]*?)(?:\\n)?",', text))
        self.assertEqual({end.status for end in ENDS}, set(statuses.values()) | {1})
        never = re.findall(r"^Runs words e (\w+) = ⊥$", (QUIET.parent / "specs/Runs.antt").read_text(), re.M)
        quiet = {number for name, number in statuses.items() if name not in never}
        with_threads = {end.status for end in ENDS if set(end.commands) == {"serve"} or "--movers" in end.only}
        self.assertEqual({end.status for end in ENDS} - quiet, with_threads - quiet | {1})
        for name, line in lines.items():
            told = {end.line for end in ENDS if end.status == statuses[name]}
            self.assertLessEqual(told, {line or "nothing"}, name)

    def test_each_command_may_end_well_and_by_its_words(self):
        for command in COMMANDS:
            ends = {end.status for end in ENDS if command.name in end.commands}
            self.assertLessEqual({0, 2, 9}, ends, command.name)
            self.assertEqual(7 in ends, not command.is_service, command.name)

    @unittest.skipUnless(PROGRAM.exists(), "the program isn't built")
    def test_examples(self):
        """Each example of the help ends well. Those of a service want clients: test_serve.py has them."""
        services = {command.name for command in COMMANDS if command.is_service}
        for example in EXAMPLES:
            if example.split()[0] in services:
                continue
            words, _, source = example.partition(" < ")
            given = (ROOT / source).read_bytes() if source else b""
            ran = subprocess.run([PROGRAM, *words.partition(" > ")[0].split()], input=given, cwd=ROOT, capture_output=True, timeout=60)
            self.assertEqual((ran.returncode, ran.stderr), (0, b""), example)

    @unittest.skipUnless(PROGRAM.exists(), "the program isn't built")
    def test_replies(self):
        """The session of the examples has the replies that stand beside it."""
        given, wanted = ((ROOT / "examples" / name).read_bytes() for name in ("requests.http", "replies.http"))
        ran = subprocess.run([PROGRAM, "session", "examples/two-brokers.json"], input=given, cwd=ROOT, capture_output=True, timeout=60)
        self.assertEqual((ran.returncode, ran.stdout, ran.stderr), (0, wanted, b""))


if __name__ == "__main__":
    unittest.main()
