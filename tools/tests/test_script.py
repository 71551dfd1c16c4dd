"""The script sumpharu, run over a tree of its own with a prover that only pretends: 'rt' is a few lines of shell here."""
import contextlib
import os
import pathlib
import pty
import re
import shutil
import signal
import subprocess
import sys
import tempfile
import time
import unittest

from places import ROOT
from sumpharu_tools.dev import make_package
from sumpharu_tools.dev.commands import NAMES
from rows.words import REFUSED

# A shell that starts the tests in the background has them ignore signals, which what they start would inherit.
for number in (signal.SIGINT, signal.SIGHUP, signal.SIGTERM):
    if signal.getsignal(number) is signal.SIG_IGN:
        signal.signal(number, signal.SIG_DFL)

NO_PROVER = "sumpharu: rt, the prover's command, isn't on the path\n"

# What the pretended prover does is told by files in the folder that CONTROL names.
RT = r"""#!/bin/sh
control=$CONTROL
echo "$*" >>"$control/calls"
case $1 in
version)
    cat "$control/version"
    [ ! -e "$control/swap" ] || mv "$control/swap" "$(cat "$control/where")"
    ;;
all)
    [ ! -e "$control/blocks" ] || { . "$control/blocks"; exit 0; }
    echo "== base"; echo "== sumpharu"; echo "== summary"
    [ ! -e "$control/killed" ] || { echo 'base: failed (-9)'; exit 1; }
    ;;
run)
    [ ! -e "$control/ends" ] || kill -"$(cat "$control/ends")" "$PPID"
    echo started >>"$control/started"
    [ ! -e "$control/refuses" ] || { echo 'rt: crates.txt: line 3 is not of the form'; exit 2; }
    [ ! -e "$control/slow" ] || { sleep 30 & wait $!; }
    text=$(cat ../../crates/sumpharu/src/main.rt)
    printf '#!/bin/sh\n[ "$2" != nap ] || exec sleep 30\necho "%s: $*"\ncat\nexit ${STATUS-0}\n' "$text" >out/sumpharu
    chmod +x out/sumpharu
    [ ! -e "$control/late" ] || { echo 'rt: the program was not proved'; exit 2; }
    [ ! -e "$control/edits" ] || echo 'edited' >../../crates/sumpharu/src/main.rt
    echo 'rt: running out/sumpharu; to give it other input, run that file yourself' >&2
    exit 2
    ;;
esac
"""


class Script(unittest.TestCase):
    def setUp(self):
        self.room = pathlib.Path(tempfile.mkdtemp(prefix="sumpharu test "))
        self.addCleanup(shutil.rmtree, self.room)
        self.tree = self.room / "a tree"
        self.control = self.room / "control"
        self.program = self.tree / "crates/sumpharu/out/sumpharu"
        for folder in (self.tree / "crates/sumpharu/src", self.tree / "crates/base/src", self.control, self.room / "bin"):
            folder.mkdir(parents=True)
        for name in ("sumpharu", "sumpharu-tools", "docs", "tools"):
            link = shutil.copytree if (ROOT / name).is_dir() else shutil.copy
            link(ROOT / name, self.tree / name)
        (self.tree / "crates.txt").write_text("# crates\nbase: thiserror\nsumpharu: base serde_json\nother: base\n")
        (self.tree / "HANDLES").write_text("Handles allowed: none.\n")
        (self.tree / "crates/base/src/lib.rt").write_text("base\n")
        self.write("one")
        self.cluster = self.room / "cluster.json"
        self.cluster.write_text("{}")
        (self.control / "version").write_text("kit 1\n")
        rt = self.room / "bin/rt"
        rt.write_text(RT)
        rt.chmod(0o755)

    def write(self, text):
        (self.tree / "crates/sumpharu/src/main.rt").write_text(text + "\n")

    def start(self, *words, script=None, prover=True, status=0, cwd=None, **how):
        path = f"{os.path.dirname(sys.executable)}:/usr/bin:/bin"
        path = f"{self.room}/bin:{path}" if prover else path
        env = {"PATH": path, "CONTROL": str(self.control), "STATUS": str(status), **how.pop("env", {})}
        pipes = {"stdin": subprocess.PIPE, "stdout": subprocess.PIPE, "stderr": subprocess.PIPE, "text": True}
        return subprocess.Popen([script or self.tree / "sumpharu", *words], env=env, cwd=cwd or self.room, **{**pipes, **how})

    def run_script(self, *words, given="", **how):
        ran = self.start(*words, **how)
        out, err = ran.communicate(given, timeout=60)
        return ran.returncode, out, err

    def plan(self, **how):
        return self.run_script("plan", str(self.cluster), **how)

    def calls(self, verb):
        file = self.control / "calls"
        return sum(line.startswith(verb) for line in file.read_text().splitlines()) if file.exists() else 0

    def until(self, holds):
        for _ in range(1200):
            if holds():
                return
            time.sleep(0.05)
        self.fail("it never came to that")

    def wait_for(self, name):
        self.until(lambda: (self.control / name).exists())

    def test_builds_once_and_after_each_change(self):
        code, out, err = self.plan(given="input")
        self.assertEqual((code, out), (0, f"one: plan {self.cluster}\ninput"))
        self.assertIn("sumpharu: checked 1 of 2: base\nsumpharu: checked 2 of 2: sumpharu\n", err)
        self.assertEqual(self.plan()[2], "")
        self.assertEqual(self.calls("run"), 1)
        # what the package is made by says the same of the program and its sources
        stamp = make_package.proved(self.program, self.tree)
        self.assertEqual(stamp.kit, "kit 1")
        # a source that is older than the program
        self.write("two")
        os.utime(self.tree / "crates/sumpharu/src/main.rt", (0, 0))
        self.assertTrue(self.plan()[1].startswith("two:"))
        changes = [
            lambda: (self.tree / "crates.txt").write_text("sumpharu: base\nbase:\n"),
            lambda: (self.tree / "HANDLES").write_text("Handles allowed: Net.\n"),
            lambda: (self.control / "version").write_text("kit 2\n"),
            lambda: (self.tree / "crates/base/src/lib.rt").rename(self.tree / "crates/base/src/mod.rt"),
            lambda: (self.tree / "crates/sumpharu/out/sumpharu").write_text("#!/bin/sh\necho other\n"),
        ]
        for number, change in enumerate(changes):
            change()
            self.assertTrue(self.plan()[1].startswith("two:"))
            self.assertEqual(self.calls("run"), 3 + number)

    def write_blocks(self, text):
        """What the prover prints of three crates, of which two stand on one another, while each look at the clock takes a minute."""
        (self.tree / "crates.txt").write_text("base:\nside: base\nsumpharu: base side\n")
        (self.tree / "crates/side/src").mkdir(parents=True)
        for name, size in (("base", 9000), ("side", 8000)):
            (self.tree / f"crates/{name}/src/lib.rt").write_text("-" * size)
        (self.control / "blocks").write_text(text)
        clock = self.room / "bin/date"
        clock.write_text('#!/bin/sh\necho x >>"$CONTROL/looks"\nexpr 60 \\* "$(wc -l <"$CONTROL/looks")"\n')
        clock.chmod(0o755)

    def test_what_a_build_says_while_it_goes(self):
        """Each crate of how many, and the minutes that are left, by the sizes of those that were proved, and with none before one was."""
        proved = "echo '== base'; echo 'fn f: proved'; echo '== side'; echo 'fn f: proved'; echo '== sumpharu'; echo 'fn f: proved'; echo '== summary'"
        self.write_blocks(proved)
        lines = lambda err: re.findall("(?m)^sumpharu: checked (.*)$", err)
        # 9000 were proved in 61 seconds, and 9000 and 2004 are left; then 18000 in 181 seconds, and 2004
        err = self.plan(env={"SUMPHARU_JOBS": "1"})[2]
        self.assertEqual(lines(err), ["1 of 3: base; about 2 min left", "2 of 3: side; about 1 min left", "3 of 3: sumpharu"])
        kept = proved.replace("echo '== base'; echo 'fn f: proved'", "echo '== base'")
        self.write("two")
        (self.control / "blocks").write_text(kept)
        err = self.plan(env={"SUMPHARU_JOBS": "1"})[2]
        self.assertEqual(lines(err), ["1 of 3: base", "2 of 3: side; about 1 min left", "3 of 3: sumpharu"])
        # what stands on one another can't be proved side by side: 11004 of base's 9000 and half as much beside it
        self.write("one")
        (self.control / "blocks").write_text(proved)
        err = self.plan(env={"SUMPHARU_JOBS": "9"})[2]
        self.assertEqual(lines(err)[0], "1 of 3: base; about 7 min left")
        log = self.tree / "crates/sumpharu/out/sumpharu.log"
        self.assertTrue(log.read_text().startswith("== base\nfn f: proved\n== side\n"))

    def test_what_a_terminal_shows(self):
        """One line, which is written anew, also where the time alone went on."""
        self.write_blocks("echo '== base'; echo 'fn f: proved'; /bin/sleep 2; echo '== side'; echo '== sumpharu'; echo '== summary'")
        (self.tree / "crates/sumpharu/src/main.rt").write_text("-" * 90000)
        nap = self.room / "bin/sleep"
        nap.write_text("#!/bin/sh\n/bin/sleep 0.5\n")
        nap.chmod(0o755)
        ours, theirs = pty.openpty()
        ran = self.start("plan", "x", env={"SUMPHARU_JOBS": "1"}, stderr=theirs)
        os.close(theirs)
        ran.communicate("", timeout=60)
        shown = b""
        with contextlib.suppress(OSError):
            while True:
                shown += os.read(ours, 65536)
        os.close(ours)
        lines = shown.decode().split("\r\n")
        moved = next(line for line in lines if "checked" in line).split("\r\033[K")
        told = [it for it in moved if it.startswith("sumpharu: checked 1 of 3: base; about ")]
        minutes = [int(it.split(" ")[-3]) for it in told]
        self.assertGreater(len({*minutes}), 1)
        self.assertEqual(minutes, sorted(minutes, reverse=True))
        self.assertEqual(moved[0], "")
        self.assertRegex(moved[-2], "^sumpharu: checked 2 of 3: side; about [0-9]+ min left$")
        self.assertEqual(moved[-1], "sumpharu: checked 3 of 3: sumpharu")
        self.assertEqual(lines[2:], ["sumpharu: compiling the program", ""])

    def test_a_failed_build_runs_nothing(self):
        self.plan()
        self.write("two")
        (self.control / "refuses").touch()
        for _ in range(2):
            code, out, err = self.plan()
            self.assertEqual((code, out), (1, ""))
            self.assertIn("rt: crates.txt: line 3", err)
            self.assertIn("the build failed, and nothing was run", err)
        (self.control / "refuses").unlink()
        self.assertTrue(self.plan()[1].startswith("two:"))

    def test_a_program_that_came_before_the_refusal_isnt_run(self):
        (self.control / "late").touch()
        for _ in range(2):
            code, out, err = self.plan()
            self.assertEqual((code, out), (1, ""))
            self.assertIn("rt: the program was not proved", err)
        self.assertEqual(self.calls("run"), 2)

    def test_an_edit_during_the_build_runs_nothing(self):
        (self.control / "edits").touch()
        code, out, err = self.plan()
        self.assertEqual((code, out), (1, ""))
        self.assertIn("a source changed while the program was built", err)
        (self.control / "edits").unlink()
        self.assertTrue(self.plan()[1].startswith("edited:"))

    def test_a_check_killed_for_memory_is_left_to_the_build(self):
        (self.control / "killed").touch()
        self.assertEqual(self.plan()[0], 0)

    def test_two_runs_build_once(self):
        self.write("old")
        self.plan()
        self.write("one")
        (self.control / "started").unlink()
        (self.control / "slow").touch()
        first = self.start("plan", str(self.cluster))
        self.wait_for("started")
        second = self.start("plan", str(self.cluster))
        self.until(lambda: any(words == b"flock\x009\x00" for _, words in self.processes()))
        (self.control / "slow").unlink()
        self.end_sleep()
        for ran in (first, second):
            out, err = ran.communicate(timeout=60)
            self.assertEqual((ran.returncode, out), (0, f"one: plan {self.cluster}\n"), err)
        self.assertIn("waiting for another build", err)
        self.assertEqual(self.calls("run"), 2)

    def processes(self):
        """The processes of this test's own tree: those whose environment names its control folder."""
        found = []
        for folder in pathlib.Path("/proc").glob("[0-9]*"):
            try:
                if f"CONTROL={self.control}\0".encode() in (folder / "environ").read_bytes():
                    found.append((int(folder.name), (folder / "cmdline").read_bytes()))
            except OSError:
                pass
        return found

    def end_sleep(self):
        for process, words in self.processes():
            if words.startswith(b"sleep"):
                os.kill(process, signal.SIGTERM)

    def test_a_killed_build_ends_what_it_started(self):
        self.write("old")
        self.plan()
        self.write("one")
        (self.control / "started").unlink()
        for number in (signal.SIGTERM, signal.SIGINT, signal.SIGHUP, signal.SIGKILL):
            (self.control / "slow").touch()
            ran = self.start("plan", str(self.cluster))
            self.wait_for("started")
            (self.control / "started").unlink()
            os.kill(ran.pid, number)
            ran.wait(timeout=60)
            self.assertEqual(ran.returncode, -9 if number == signal.SIGKILL else 128 + number)
            self.until(lambda: not any(b"/rt\0" in words for _, words in self.processes()))
            self.end_sleep()
            self.assertEqual(ran.communicate()[0], "")
            self.assertFalse(self.program.exists())
        (self.control / "slow").unlink()
        (self.control / "refuses").touch()
        self.assertEqual(self.plan()[:2], (1, ""))
        (self.control / "refuses").unlink()
        self.assertEqual(self.plan()[:2], (0, f"one: plan {self.cluster}\n"))

    def test_a_build_that_is_killed_as_its_prover_starts(self):
        """The prover's first act is to end the script, which may not know its process yet."""
        (self.control / "slow").touch()
        for name in ("TERM", "INT", "HUP", "KILL"):
            (self.control / "ends").write_text(name)
            ran = self.start("plan", str(self.cluster))
            ran.wait(timeout=60)
            self.until(lambda: not any(b"/rt\0" in words for _, words in self.processes()))
            self.end_sleep()
            self.assertEqual(ran.communicate()[0], "")
            self.assertFalse(self.program.exists())

    def test_a_killed_run_ends_the_program(self):
        self.plan()
        for number in (signal.SIGTERM, signal.SIGINT, signal.SIGHUP):
            ran = self.start("plan", "nap")
            naps = lambda: any(words.startswith(b"sleep") for _, words in self.processes())
            self.until(naps)
            os.kill(ran.pid, number)
            ran.communicate(timeout=60)
            self.assertEqual(ran.returncode, 128 + number)
            self.assertFalse(naps())

    def test_places(self):
        link = self.room / "bin/on-the-path"
        link.symlink_to(self.tree / "sumpharu")
        self.assertEqual(self.run_script("plan", "cluster.json", script=link)[:2], (0, "one: plan cluster.json\n"))
        self.assertEqual(self.run_script("plan", "cluster.json", script="on-the-path")[0], 0)
        self.assertEqual(self.run_script("plan", "x", script="../sumpharu", cwd=self.tree / "docs")[:2], (0, "one: plan x\n"))

    def test_no_prover(self):
        unbuilt = "sumpharu: the program has to be built, which takes rt: nothing was run\n"
        self.assertEqual(self.plan(prover=False), (1, "", NO_PROVER + unbuilt))
        self.plan()
        out = f"one: plan {self.cluster}\n"
        self.assertEqual(self.plan(prover=False), (0, out, NO_PROVER))
        self.write("two")
        self.assertEqual(self.plan(prover=False), (1, "", NO_PROVER + unbuilt))
        self.write("one")
        self.assertEqual(self.plan(prover=False), (0, out, NO_PROVER))

    def test_a_prover_that_fails_takes_nothing_away(self):
        self.plan()
        (self.control / "version").unlink()
        code, out, err = self.plan()
        self.assertEqual((code, out), (1, ""))
        self.assertIn("sumpharu: 'rt version' failed", err)
        (self.control / "version").write_text("kit 1\n")
        self.assertEqual(self.plan()[0], 0)
        self.assertEqual(self.calls("run"), 1)

    def test_what_runs_is_what_was_checked(self):
        """A program that takes the place of the one that was compared isn't run."""
        self.plan()
        (self.control / "where").write_text(str(self.program))
        other = self.control / "swap"
        other.write_text("#!/bin/sh\necho other\n")
        other.chmod(0o755)
        self.assertEqual(self.plan()[:2], (0, f"one: plan {self.cluster}\n"))
        self.assertFalse(other.exists())
        self.assertEqual(self.plan()[:2], (0, f"one: plan {self.cluster}\n"))
        self.assertEqual(self.calls("run"), 2)

    def test_no_checksum(self):
        """Where no checksum can be made nothing is taken for current."""
        self.plan()
        self.write("two")
        (self.program.parent / "sumpharu.built").write_text("\n\nkit 1\n")
        tool = self.room / "bin/sha256sum"
        tool.write_text("#!/bin/sh\nexit 1\n")
        tool.chmod(0o755)
        self.assertEqual(self.plan(), (1, "", "sumpharu: no checksum of the sources can be made\n"))

    def test_a_stamp_that_was_cut(self):
        self.plan()
        stamp = self.program.parent / "sumpharu.built"
        lines = stamp.read_text().splitlines(keepends=True)
        for number, text in enumerate(("", "\n\n\n", "".join(lines[:2]), "".join(lines)[:-1], "x" + "".join(lines))):
            stamp.write_text(text)
            self.assertEqual(self.plan()[0], 0)
            self.assertEqual(self.calls("run"), 2 + number)

    def test_sources_in_odd_places(self):
        """Files behind links, in folders named out, and with odd names are sources too; what the prover keeps isn't."""
        elsewhere = self.room / "elsewhere"
        elsewhere.mkdir()
        (self.tree / "crates/base/src/link").symlink_to(elsewhere)
        (elsewhere / "a.rt").write_text("a")
        inner = self.tree / "crates/base/src/out"
        inner.mkdir()
        self.plan()
        files = [elsewhere / "a.rt", inner / "b.rt", self.tree / "crates/base/two\nlines  and 'quotes'.rt", self.tree / "crates/sumpharu/.hidden"]
        for number, file in enumerate(files):
            file.write_text("changed")
            self.plan()
            self.assertEqual(self.calls("run"), 2 + number, file)
        (self.tree / "crates/base/out").mkdir()
        (self.tree / "crates/base/out/kept").write_text("kept")
        self.assertEqual(self.plan()[2], "")

    def test_the_number_of_crates_side_by_side(self):
        for number in ("0", "", "two", "-1"):
            code, out, err = self.run_script("plan", "x", env={"SUMPHARU_JOBS": number})
            self.assertEqual((code, out, err), (1, "", f"sumpharu: SUMPHARU_JOBS has to be a number above 0, and it is '{number}'\n"))
        self.assertEqual(self.run_script("plan", "x", env={"SUMPHARU_JOBS": "3"})[0], 0)
        self.assertEqual(self.calls("all check --jobs 3"), 1)

    def test_read_only(self):
        out = self.tree / "crates/sumpharu/out"
        out.write_text("a file where the folder would be, which root can't write either")
        code, _, err = self.plan()
        self.assertEqual(code, 1)
        self.assertEqual(err, f"sumpharu: the program has to be built, and '{out}' can't be written\n")

    @unittest.skipUnless(os.geteuid() == 0 and sys.version_info >= (3, 9), "only root may run as another user, from Python 3.9 on")
    def test_a_checkout_that_its_user_may_not_write(self):
        self.room.chmod(0o755)
        user = {"user": 65534, "group": 65534, "extra_groups": []}
        self.control.chmod(0o777)
        unbuilt = f"sumpharu: the program has to be built, and '{self.program.parent}' can't be written\n"
        try:
            first = self.plan(**user)
        except OSError as fault:
            self.skipTest(f"no run as another user: {fault}")
        self.assertEqual(first, (1, "", unbuilt))
        self.plan()
        (self.control / "calls").chmod(0o666)
        self.assertEqual(self.plan(**user), (0, f"one: plan {self.cluster}\n", ""))
        self.cluster.chmod(0)
        self.assertEqual(self.plan(status=5, **user)[2], f"sumpharu: '{self.cluster}' may not be read by this user\n")
        self.write("two")
        self.assertEqual(self.plan(**user), (1, "", unbuilt))

    def test_no_build_for_help_and_faulty_words(self):
        text = (ROOT / "docs/help.txt").read_text()
        for words in (["help"], ["--help"], ["-h"], ["help", "else"], ["other", "--help"]):
            self.assertEqual(self.run_script(*words)[:2], (0, text))
        self.assertEqual(self.run_script("help", "../help")[2], "sumpharu: there is no command '../help'\n")
        self.assertEqual(self.run_script("--version"), (0, (ROOT / "docs/version.txt").read_text(), ""))
        for words in (["help", "check"], ["check", "--help"], ["check", "a", "-h"]):
            self.assertEqual(self.run_script(*words), (0, (ROOT / "docs/help/check.txt").read_text(), ""))
        commands = f"sumpharu: the commands are {', '.join(sorted(NAMES))}: "
        rows = [
            ([], commands),
            (["plam", "x"], commands),
            (["plan apply", "x"], commands),
            (["../help", "x"], commands),
            (["plan"], "sumpharu: these are wanted: plan FILE\n"),
            (["check", "x"], "sumpharu: these are wanted: check FILE TRACE\n"),
            (["plan", "x", "y"], "sumpharu: 'plan' takes no further argument, as 'y'\n"),
            (["plan", "x", "--goal", "y"], "sumpharu: 'plan' has no option '--goal'\n"),
            (["plan", "x", "-t"], "sumpharu: 'plan' has no option '-t'\n"),
            (["plan", "x", "--trace=y"], "sumpharu: '--trace' takes no value\n"),
            (["plan", "x", "--goals"], "sumpharu: '--goals' wants a value\n"),
            (["plan", "x", "--trace", "--trace"], "sumpharu: '--trace' is given twice\n"),
        ]
        for words, hint in rows:
            code, out, err = self.run_script(*words)
            self.assertEqual((code, out), (2, ""))
            self.assertTrue(err.startswith(f"usage error\n{hint}"), err)
        self.assertEqual(self.calls(""), 0)

    def test_what_is_missing_is_said_first(self):
        for words in (["help"], ["plan", "-h"], ["--version"], [], ["plam"], ["plan"], ["plan", "x"]):
            with_prover = self.run_script(*words) if words != ["plan", "x"] else (1, "", "")
            code, out, err = self.run_script(*words, prover=False)
            self.assertEqual((code, out), with_prover[:2], words)
            self.assertTrue(err.startswith(NO_PROVER + with_prover[2]), err)
            self.assertEqual(err.count("isn't on the path"), 1)

    def test_words_are_refused_only_where_the_program_refuses_them(self):
        """Each command line of the tests and of the rows: one that means a command goes to the program."""
        text = (ROOT / "crates/request_tests/src/commands.rt").read_text()
        text = text[text.index("const LINES") : text.index("];", text.index("const LINES"))]
        lines = re.findall(r'\(\s*"((?:[^"])*)",\s*"([^"]*)",?\s*\)', text) + [(line, "Usage") for line in REFUSED]
        self.assertGreater(len(lines), 80)
        self.plan()
        passed = []
        for line, meaning in lines:
            words = line.split(" ")
            if words[0] not in NAMES or "-h" in words:
                continue
            code, _, err = self.run_script(*words)
            if code:
                self.assertEqual((code, meaning), (2, "Usage"), line)
                self.assertTrue(err.startswith("usage error\n"), line)
            elif meaning == "Usage":
                passed.append(line)
        for line in passed:
            self.assertRegex(line, "--(movers|planners|brokers|partitions|links) ?=?|^gen ", "only values are left to the program")

    def test_hints(self):
        bad = self.room / "bad.json"
        bad.write_text('{"version": 1,\n "brokers": ]}')
        large = self.room / "large"
        with open(large, "wb") as file:
            file.truncate(67108865)
        good = str(self.cluster)
        rows = [
            (2, ["plan", good], "sumpharu: the arguments of 'plan': "),
            (2, ["plan", good, "--goals", "RackGoal"], "sumpharu: '--goals' takes names of docs/GOALS.md, "),
            (2, ["plan", good, "--goals=RackGoal"], "sumpharu: '--goals' takes names of docs/GOALS.md, "),
            (3, ["plan", str(bad)], "sumpharu: a plain JSON reader stops at line 2, column 13: Expecting value\n"),
            (3, ["plan", good], "sumpharu: docs/FORMATS.md, 'Refusals', "),
            (4, ["plan", good], f"sumpharu-tools' explain '{good}' "),
            (4, ["plan", "--goals", "x", good], f"sumpharu-tools' explain '{good}' "),
            (5, ["plan", "/none"], "sumpharu: there is no file '/none'\n"),
            (5, ["plan", str(self.room)], f"sumpharu: '{self.room}' is a folder\n"),
            (5, ["plan", str(large)], f"sumpharu: '{large}' has more than 67108864 bytes\n"),
            (5, ["check", good, "/none"], "sumpharu: there is no file '/none'\n"),
            (5, ["check", good, "--excluded-topics", "x", "--", "--none"], "sumpharu: there is no file '--none'\n"),
            (5, ["session", "/none"], "sumpharu: there is no file '/none'\n"),
            (10, ["session", good], "sumpharu: docs/FORMATS.md, 'Requests of the service', "),
            (11, ["check", good, good], "sumpharu: docs/FORMATS.md, 'The trace', "),
            (12, ["serve", good, "--links", "2"], "sumpharu: 'serve' can't listen where '--listen' says, "),
            (0, ["plan", good], ""),
            (7, ["plan", good], ""),
        ]
        self.plan()
        for status, words, hint in rows:
            code, _, err = self.run_script(*words, status=status)
            self.assertEqual(code, status)
            self.assertIn(hint, err)
            self.assertEqual(err == "", hint == "", err)


if __name__ == "__main__":
    unittest.main()
