"""Wrong bodies in the merge gate and in the tool wrong-bodies, in a checkout of their own with a prover that only pretends."""
import os
import pathlib
import shutil
import signal
import subprocess
import sys
import tempfile
import time
import unittest

from places import ROOT, copy_tools
from sumpharu_tools.dev import edits

TOOL = ("./sumpharu-tools", "wrong-bodies")
# What the pretended prover does is told by files in the folder that CONTROL names. A wrong body whose text has 'passes' isn't refused.
RT = r"""#!/bin/sh
control=$CONTROL
echo "$*" >>"$control/calls"
case $1 in
version)
    cat "$control/version"
    ;;
ci | must-fail)
    find crates -name '*.edit' | sort >"$control/placed"
    [ ! -e "$control/slow" ] || { touch "$control/started"; exec sleep 30; }
    [ ! -e "$control/edits" ] || . "$control/edits"
    failed=0
    for edit in $(cat "$control/placed"); do
        label="rt: must-fail $(expr "$edit" : 'crates/\([^/]*\)/')/${edit##*/}"
        case $(cat "$edit") in
        *passes*) echo "$label: NOT REFUSED: the crate is still proved with this edit"; failed=1 ;;
        *unread*) echo "$label: BAD EDIT: the prover cannot read the edited text" ;;
        *silent*) ;;
        *) echo "$label: refused, as it must be: src/lib.rt:1:1: error" ;;
        esac
    done
    [ ! -e "$control/fails" ] || failed=1
    echo "1 passed, $failed failed"
    exit $failed
    ;;
esac
"""


def body_of(new, old="one"):
    return f"file: src/lib.rt\nold: {old}\nnew: {new}\n"


class WrongBodies(unittest.TestCase):
    def setUp(self):
        self.room = pathlib.Path(tempfile.mkdtemp(prefix="sumpharu test "))
        self.addCleanup(shutil.rmtree, self.room)
        self.tree, self.control = self.room / "a tree", self.room / "control"
        for folder in (self.control, self.room / "bin", self.tree / "tools/tests"):
            folder.mkdir(parents=True)
        shutil.copytree(ROOT / ".ci", self.tree / ".ci")
        shutil.copy(ROOT / ".gitignore", self.tree / ".gitignore")
        copy_tools(self.tree)
        self.write("tools/tests/test_none.py", "")
        self.write("crates.txt", "base: std\n# above\ntop: base\nplain: base\n")
        for crate in ("base", "top", "plain"):
            self.write(f"crates/{crate}/src/lib.rt", "one two\n")
        self.write("wrong-bodies/base/a.edit", body_of("a"))
        self.write("wrong-bodies/base/b.edit", body_of("b"))
        self.write("wrong-bodies/top/a.edit", body_of("c"))
        (self.control / "version").write_text("kit 1\n")
        rt = self.room / "bin/rt"
        rt.write_text(RT)
        rt.chmod(0o755)
        self.git("init", "--quiet")
        self.git("add", "--all")

    def git(self, *words):
        return subprocess.run(["git", *words], cwd=self.tree, check=True, capture_output=True, text=True, timeout=60).stdout

    def write(self, name, text):
        (self.tree / name).parent.mkdir(parents=True, exist_ok=True)
        (self.tree / name).write_text(text)

    def start(self, *words):
        path = f"{self.room}/bin:{os.path.dirname(sys.executable)}:/usr/bin:/bin"
        pipes = {"stdin": subprocess.DEVNULL, "stdout": subprocess.PIPE, "stderr": subprocess.PIPE, "text": True}
        env = {"PATH": path, "CONTROL": str(self.control)}
        return subprocess.Popen(words, env=env, cwd=self.tree, start_new_session=True, **pipes)

    def run_words(self, *words):
        ran = self.start(*words)
        out, err = ran.communicate(timeout=300)
        return ran.returncode, out, err

    def tool(self, *words):
        return self.run_words(*TOOL, *words)

    def gate(self, *words):
        """The gate, which this tree's rows always fail, since it has no program: its status is 1 where it comes to them, and the prover passed."""
        (self.control / "placed").unlink(missing_ok=True)
        code, out, err = self.run_words(".ci/run", *words)
        self.has_rows = "run: sumpharu plan: status" in err
        return code, out, err

    def placed(self):
        """The wrong bodies that stood in the crates' folders while the prover ran."""
        return [line.removeprefix("crates/") for line in (self.control / "placed").read_text().splitlines()]

    def tried(self):
        path = self.tree / "wrong-bodies/tried.txt"
        return path.read_text().splitlines() if path.exists() else []

    def named(self):
        """The crates that have a line."""
        return [line.split(" ")[0] for line in self.tried()[1:]]

    def listed(self):
        return [line.split(":")[0] for line in self.tool()[1].splitlines()[:-1]]

    def expect_nothing_left(self):
        self.assertEqual([*self.tree.glob("crates/*/must-fail")], [])
        changed = [line for line in self.git("status", "--porcelain", "--ignored").splitlines() if not line.startswith("A ")]
        self.assertEqual([line for line in changed if "tried.txt" not in line], [])

    def test_lines_come_from_a_run(self):
        self.assertEqual(self.listed(), ["base", "top"])
        self.assertEqual(self.tried(), [])
        code, out, err = self.tool("try", "base")
        self.assertEqual((code, err), (0, ""))
        self.assertIn("rt: must-fail base/a.edit: refused", out)
        self.assertEqual(self.placed(), ["base/must-fail/a.edit", "base/must-fail/b.edit"])
        self.assertEqual((self.tried()[0], self.named()), ("kit 1", ["base"]))
        self.assertEqual(self.listed(), ["top"])
        self.expect_nothing_left()
        first = self.tried()[1]
        self.assertEqual(self.tool("try")[0], 0)
        self.assertEqual(self.placed(), ["top/must-fail/a.edit"])
        self.assertEqual((self.named(), self.tried()[1]), (["base", "top"], first))
        self.assertEqual(self.tool("try")[:2], (0, "no crate is stale\n"))
        self.assertEqual(self.calls("ci"), ["ci base", "ci top"])
        self.assertEqual(self.tool("try", "--all")[0], 0)
        self.assertEqual(len(self.placed()), 3)

    def calls(self, verb):
        return [line for line in (self.control / "calls").read_text().splitlines() if line.startswith(verb)]

    def test_what_makes_a_crate_stale(self):
        """A line of its sources or of a wrong body, a file more or less or by another name; but no other crate, and nothing that was made of it."""
        self.tool("try")
        path = self.tree / "wrong-bodies/base"
        changes = [
            lambda: self.write("crates/base/src/lib.rt", "one two \n"),
            lambda: self.write("crates/base/specs/Lib.antt", ""),
            lambda: self.write("crates/base/proofs/lib/f/Answers.antt", "a"),
            lambda: (self.tree / "crates/base/src/lib.rt").rename(self.tree / "crates/base/src/main.rt"),
            lambda: self.write("wrong-bodies/base/a.edit", body_of("d")),
            lambda: self.write("wrong-bodies/base/c.edit", body_of("d")),
            lambda: (path / "a.edit").unlink(),
            lambda: (path / "a.edit").rename(path / "z.edit"),
        ]
        for folder in ("crates", "wrong-bodies"):
            shutil.copytree(self.tree / folder, self.room / folder)
        for change in changes:
            self.assertEqual(edits.stale(self.tree, "kit 1"), [])
            change()
            self.assertEqual(edits.stale(self.tree, "kit 1"), ["base"])
            for folder in ("crates", "wrong-bodies"):
                shutil.rmtree(self.tree / folder)
                shutil.copytree(self.room / folder, self.tree / folder)
        self.write("crates/base/out/made", "")
        self.write("crates/plain/src/lib.rt", "other")
        self.assertEqual(self.listed(), [])
        changes[0]()
        self.assertEqual(self.listed(), ["base"])

    def test_another_kit_makes_all_stale(self):
        self.tool("try")
        (self.control / "version").write_text("kit 2\n")
        self.assertEqual(self.listed(), ["base", "top"])
        self.assertEqual(self.tool("try", "top")[0], 0)
        self.assertEqual((self.tried()[0], self.named()), ("kit 2", ["top"]))
        (self.tree / "wrong-bodies/tried.txt").unlink()
        self.assertEqual(self.listed(), ["base", "top"])

    def test_a_kit_of_the_same_logic_keeps_the_lines(self):
        (self.control / "version").write_text("kit 1 logic a\n")
        self.tool("try")
        for version, stale in ("kit 2 logic a", []), ("kit 1 logic b", ["base", "top"]), ("kit 1 logic a", []):
            (self.control / "version").write_text(f"{version}\n")
            self.assertEqual(self.listed(), stale, version)

    def test_no_line_without_a_refusal_in_this_run(self):
        rows = [(body_of("passes"), 1, "not refused in this run: b.edit"), (body_of("unread"), 1, "b.edit"), (body_of("silent"), 1, "b.edit")]
        for text, status, why in rows:
            self.write("wrong-bodies/base/b.edit", text)
            code, out, _ = self.tool("try")
            self.assertEqual(code, status, text)
            self.assertRegex(out, f"(?m)^base: no line is written: .*{why}$")
            self.assertEqual(self.named(), ["top"])
            (self.tree / "wrong-bodies/tried.txt").unlink()
        # a prover that fails for another reason: what it refused, it refused
        self.write("wrong-bodies/base/b.edit", body_of("b"))
        (self.control / "fails").touch()
        self.assertEqual(self.tool("try", "base")[0], 1)
        self.assertEqual(self.named(), ["base"])

    def test_a_line_of_the_prover_that_is_not_its_only_one(self):
        """What a test of a crate prints isn't taken for the prover's word."""
        label = "rt: must-fail base/a.edit: "
        body = pathlib.Path("a.edit")
        self.assertTrue(edits.is_refused([f"{label}refused, as it must be"], "base", body))
        for other in ("NOT REFUSED: it is proved", "BAD EDIT: it isn't read", "refused, as it must be"):
            self.assertFalse(edits.is_refused([f"{label}refused, as it must be", label + other], "base", body))
        self.assertFalse(edits.is_refused([f" {label}refused, as it must be"], "base", body))
        self.assertFalse(edits.is_refused([f"{label}refused, as it must be"], "top", body))

    def test_a_change_during_the_run_writes_no_line(self):
        """Also one that is taken back, and another kit."""
        changes = [
            "echo new >>crates/base/src/lib.rt",
            "cp crates/base/src/lib.rt kept; echo new >>crates/base/src/lib.rt; cp kept crates/base/src/lib.rt; rm kept",
            "echo '# new' >>wrong-bodies/base/a.edit",
        ]
        for change in changes:
            (self.control / "edits").write_text(change)
            code, out, _ = self.tool("try")
            self.assertEqual(code, 1)
            self.assertIn("base: no line is written: its files changed during the run\n", out)
            self.assertEqual(self.named(), ["top"])
        (self.control / "edits").write_text('echo kit 2 >"$control/version"')
        code, _, err = self.tool("try")
        self.assertEqual((code, err), (2, "wrong-bodies: the kit changed during the run: no line is written\n"))
        self.assertEqual((self.tried()[0], self.named()), ("kit 1", ["top"]))

    def test_the_gate_tries_what_is_stale(self):
        self.assertEqual(self.gate()[0], 1)
        self.assertTrue(self.has_rows)
        self.assertEqual(len(self.placed()), 3)
        self.assertEqual(self.tried(), [])
        self.tool("try")
        self.write("crates/top/src/lib.rt", "one three")
        code, out, err = self.gate()
        self.assertTrue(self.has_rows, err)
        self.assertEqual(self.placed(), ["top/must-fail/a.edit"])
        last = "wrong bodies: 1 of 1 crates were tried in this run, and 2 of 1 crates rest on an earlier run\n"
        self.assertEqual(out.splitlines(True)[-1], last)
        self.assertEqual(self.gate("--all")[0], 1)
        self.assertEqual(len(self.placed()), 3)
        self.assertEqual(self.calls("ci")[-3:], ["ci base top", "ci", "ci"])
        self.git("add", "--all")
        self.expect_nothing_left()

    def test_a_gate_that_fails(self):
        self.write("wrong-bodies/top/a.edit", body_of("passes"))
        before = self.git("status", "--porcelain")
        code, out, _ = self.gate()
        self.assertEqual((code, self.has_rows), (1, False))
        self.assertIn("rt: must-fail top/a.edit: NOT REFUSED", out)
        self.assertEqual((self.tried(), self.git("status", "--porcelain")), ([], before))
        self.assertEqual([*self.tree.glob("crates/*/must-fail")], [])
        code, _, err = self.gate("--al")
        self.assertEqual((code, err.count("\n"), (self.control / "placed").exists()), (2, 1, False))

    def test_a_gate_that_is_interrupted(self):
        """By a key, which the prover hears too, and by a signal to the gate alone, which then ends with the prover."""
        (self.control / "slow").touch()
        for number, to in ((signal.SIGINT, os.killpg), (signal.SIGTERM, os.killpg), (signal.SIGHUP, os.killpg), (signal.SIGTERM, os.kill)):
            ran = self.start(".ci/run")
            self.until(lambda: (self.control / "started").exists())
            self.assertEqual(len([*self.tree.glob("crates/*/must-fail/*.edit")]), 3)
            (self.control / "started").unlink()
            to(ran.pid, number)
            if to is os.kill:
                self.end_sleep()
            ran.communicate(timeout=300)
            self.assertEqual(ran.returncode, 128 + number)
            self.expect_nothing_left()

    def test_a_try_that_is_interrupted(self):
        (self.control / "slow").touch()
        for number in (signal.SIGINT, signal.SIGTERM, signal.SIGHUP):
            ran = self.start(*TOOL, "try", "base")
            self.until(lambda: (self.control / "started").exists())
            self.assertEqual(len([*self.tree.glob("crates/*/must-fail/*.edit")]), 2)
            (self.control / "started").unlink()
            os.kill(ran.pid, number)
            ran.communicate(timeout=300)
            self.assertEqual(ran.returncode, 128 + number)
            self.assertEqual(self.tried(), [])
            self.expect_nothing_left()

    def until(self, holds):
        for _ in range(6000):
            if holds():
                return
            time.sleep(0.05)
        self.fail("it never came to that")

    def end_sleep(self):
        """Ends the sleeping prover of this test alone."""
        for folder in pathlib.Path("/proc").glob("[0-9]*"):
            try:
                words, env = ((folder / name).read_bytes() for name in ("cmdline", "environ"))
                if words.startswith(b"sleep") and f"CONTROL={self.control}\0".encode() in env:
                    os.kill(int(folder.name), signal.SIGTERM)
            except OSError:
                pass

    def test_two_runs_in_turn(self):
        (self.control / "slow").touch()
        first = self.start(".ci/run")
        self.until(lambda: (self.control / "started").exists())
        (self.control / "slow").unlink()
        second = self.start(*TOOL, "try", "top")
        self.assertEqual(second.stderr.readline(), "waiting for another run that tries wrong bodies in this checkout\n")
        self.assertEqual(len([*self.tree.glob("crates/*/must-fail/*.edit")]), 3)
        self.end_sleep()
        self.assertEqual((first.communicate(timeout=300), first.returncode)[1], 128 + signal.SIGTERM)
        second.communicate(timeout=300)
        self.assertEqual((second.returncode, self.placed(), self.named()), (0, ["top/must-fail/a.edit"], ["top"]))

    def test_what_a_killed_gate_left_goes(self):
        (self.control / "slow").touch()
        ran = self.start(".ci/run")
        self.until(lambda: (self.control / "started").exists())
        os.killpg(ran.pid, signal.SIGKILL)
        ran.communicate(timeout=300)
        (self.control / "slow").unlink()
        self.assertEqual(len([*self.tree.glob("crates/*/must-fail/*.edit")]), 3)
        self.write("wrong-bodies/base/a.edit", body_of("other"))
        (self.tree / "wrong-bodies/base/b.edit").unlink()
        self.tool("try", "base")
        self.assertEqual(self.placed(), ["base/must-fail/a.edit"])
        self.git("add", "--all")
        self.expect_nothing_left()

    def test_what_else_stands_there_stays(self):
        self.write("crates/base/must-fail/mine.edit", body_of("mine"))
        for words in ((".ci/run",), (*TOOL, "try"), (*TOOL, "remove")):
            code, _, err = self.run_words(*words)
            self.assertEqual((code, err.count("\n")), (0, 0) if "remove" in words else (2, 1))
            self.assertEqual("crates/base/must-fail/mine.edit: no file of yours may stand there" in err, "remove" not in words)
            self.assertFalse((self.control / "placed").exists())
            self.assertEqual([it.name for it in self.tree.glob("crates/*/must-fail/*")], ["mine.edit"])

    def test_what_comes_there_during_a_run_stays(self):
        (self.control / "edits").write_text("echo mine >crates/base/must-fail/mine.edit")
        self.tool("try", "base")
        self.assertEqual([it.name for it in self.tree.glob("crates/*/must-fail/*")], ["mine.edit"])

    def test_faults(self):
        rows = [
            ("wrong-bodies/other/a.edit", body_of("a"), "wrong-bodies/other is no folder of a crate of crates.txt"),
            ("wrong-bodies/a.edit", body_of("a"), "wrong-bodies/a.edit is no folder of a crate of crates.txt"),
            ("wrong-bodies/base/a.txt", body_of("a"), "is no wrong body"),
            ("wrong-bodies/base/c.edit", body_of("a", "three"), "stands in src/lib.rt 0 times"),
            ("wrong-bodies/base/c.edit", body_of("a", "o"), "stands in src/lib.rt 2 times"),
            ("wrong-bodies/base/c.edit", body_of("one"), "it changes nothing"),
            ("wrong-bodies/base/c.edit", body_of("a").replace("lib", "main"), "there is no file src/main.rt"),
            ("wrong-bodies/base/c.edit", "file: src/lib.rt\nnew: a\n", "has no file or no old text"),
        ]
        for name, text, why in rows:
            self.write(name, text)
            code, out, err = self.tool("place")
            self.assertEqual((code, out, err.count("\n")), (2, "", 1), text)
            self.assertIn(why, err)
            if why.endswith("0 times"):
                self.assertEqual(self.tool("try"), (2, "", err))
            (self.tree / name).unlink()
            if name.startswith("wrong-bodies/other"):
                (self.tree / name).parent.rmdir()
        self.expect_nothing_left()
        (self.control / "version").unlink()
        self.assertEqual(self.tool()[0], 2)
        for words in (["try", "plain"], ["list", "base"], ["place", "--gate"], ["try", "--gate", "--draft"], ["try", "base", "--all"]):
            code, out, err = self.tool(*words)
            self.assertEqual((code, out, err.count("\n")), (2, "", 1), words)

    def test_other_ways_to_try(self):
        code, out, _ = self.tool("try", "base", "--draft")
        self.assertEqual((code, self.tried()), (0, []))
        self.assertIn("rt: must-fail base/a.edit: refused", out)
        self.assertEqual(self.tool("try", "top", "--gate")[0], 0)
        self.assertEqual((self.calls("ci"), self.calls("must")), (["ci"], ["must-fail base"]))
        self.assertEqual(self.named(), ["top"])
        self.expect_nothing_left()


class Repository(unittest.TestCase):
    """The wrong bodies of this repository."""

    def test_each_can_be_applied(self):
        bodies = edits.bodies_of(ROOT)
        self.assertGreater(sum(map(len, bodies.values())), 100)
        for crate, found in bodies.items():
            for body in found:
                self.assertIsNone(edits.fault_of(ROOT / "crates" / crate, body.read_text()), body)

    def test_none_stands_where_it_is_tried(self):
        tracked = subprocess.run(["git", "ls-files", "crates/*/must-fail"], cwd=ROOT, capture_output=True, text=True, timeout=60)
        self.assertEqual(tracked.stdout, "")


if __name__ == "__main__":
    unittest.main()
