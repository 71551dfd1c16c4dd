"""The tool measure-gate, in a checkout of its own with a prover that only pretends: it takes the processor for a while, and says what it did."""
import os
import pathlib
import shutil
import signal
import subprocess
import sys
import tempfile
import time
import unittest

from places import copy_tools


# Where CONTROL has a file 'works', what the pretended prover proves takes 0.3 seconds, tests 0.6, wrong bodies 0.9, and the runs
# behind them 1.2. A crate is kept under the mark beside its sources.
RT = r"""#!/bin/sh
control=$CONTROL
work() {
    [ ! -e "$control/works" ] || python3 -c "import time
while time.process_time() < $1: pass"
}
say() {
    echo "rt: $*"
}
case $1 in
version)
    cat "$control/version"
    ;;
ci)
    crate=$2
    echo "$crate jobs=$RT_JOBS ci=$CI" >>"$control/calls"
    for below in $(sed -n "s/^$crate:\(.*\)/\1/p" crates.txt); do
        mark=$(cat "crates/$below/src/mark.md" 2>/dev/null)
        [ ! -e "$control/kept $below $mark" ] || { say "$below is kept: an earlier run"; continue; }
        work 0.4
        say "$below proved"
    done
    [ ! -e "$control/slow" ] || { echo $$ >"$control/started"; exec sleep 30; }
    [ ! -e "$control/fails $crate" ] || { say "$crate NOT PROVED"; echo '0 passed, 1 failed'; exit 1; }
    mark=$(cat "crates/$crate/src/mark.md")
    work 0.3
    echo "== $crate"
    say "$crate proved"
    grep -q test "crates/$crate/src/lib.rt" && { work 0.6; say "$crate: its tests are proved"; }
    for edit in crates/*/must-fail/*.edit; do
        [ -e "$edit" ] || continue
        name=$(expr "$edit" : 'crates/\([^/]*\)/')
        [ "$name" != "$crate" ] || [ -e "$control/mute" ] || work 0.9
        [ -e "$control/mute" ] || say "must-fail $name/${edit##*/}: refused, as it must be"
    done
    touch "$control/kept $crate $mark"
    work 1.2
    echo '1 passed, 0 failed'
    ;;
esac
"""


class MeasureGate(unittest.TestCase):
    def setUp(self):
        self.room = pathlib.Path(tempfile.mkdtemp(prefix="sumpharu test "))
        self.addCleanup(shutil.rmtree, self.room)
        self.tree, self.control, self.figures = self.room / "a tree", self.room / "control", self.room / "figures"
        for folder in (self.control, self.room / "bin"):
            folder.mkdir(parents=True)
        copy_tools(self.tree)
        texts = {"base": "one", "middle": "one test", "top": "one"}
        (self.tree / "crates.txt").write_text("top: middle base\nmiddle: base std\nbase:\n")
        for crate, text in texts.items():
            (self.tree / f"crates/{crate}/src").mkdir(parents=True)
            (self.tree / f"crates/{crate}/src/lib.rt").write_text(text)
        for crate in ("base", "top"):
            (self.tree / f"wrong-bodies/{crate}").mkdir(parents=True)
            (self.tree / f"wrong-bodies/{crate}/a.edit").write_text("file: src/lib.rt\nold: one\nnew: two\n")
        (self.tree / "crates/base/out").mkdir()
        (self.control / "version").write_text("kit 1\n")
        rt = self.room / "bin/rt"
        rt.write_text(RT)
        rt.chmod(0o755)

    def start(self, *words):
        path = f"{self.room}/bin:{os.path.dirname(sys.executable)}:/usr/bin:/bin"
        env = {"PATH": path, "CONTROL": str(self.control), "CI": "true", "TMPDIR": str(self.room)}
        pipes = {"stdout": subprocess.PIPE, "stderr": subprocess.PIPE, "text": True}
        return subprocess.Popen([self.tree / "sumpharu-tools", "measure-gate", *words], env=env, cwd=self.room, **pipes)

    def tool(self, *words):
        ran = self.start(*words)
        out, err = ran.communicate(timeout=300)
        self.assertEqual([*self.room.glob("measure-gate-*")], [])
        return ran.returncode, out, err

    def rows(self):
        lines = [line.split("\t") for line in self.figures.read_text().splitlines()]
        return {line[0]: line[2:] for line in lines if len(line) > 2}

    def calls(self):
        return (self.control / "calls").read_text().splitlines()

    def near(self, text, seconds):
        self.assertTrue(seconds <= float(text) < seconds + 0.29, f"{text}, and {seconds} is wanted")

    def test_each_part_is_measured(self):
        (self.control / "works").touch()
        before = sorted(self.tree.rglob("*"))
        code, out, err = self.tool("figures")
        self.assertEqual((code, err), (0, "measured base\nmeasured middle\nmeasured top\n"))
        self.assertEqual(self.calls(), ["base jobs=1 ci=", "middle jobs=1 ci=", "top jobs=1 ci="])
        rows = self.rows()
        for crate, costs in (("base", (0.3, None, 0.9)), ("middle", (0.3, 0.6, None)), ("top", (0.3, None, 0.9))):
            for text, seconds in zip(rows[crate], costs):
                self.assertEqual(text, "-") if seconds is None else self.near(text, seconds)
        self.assertIn("| crate | proof | tests | wrong bodies |\n|---|---|---|---|\n", out)
        self.assertRegex(out, r"\n\| middle \| 0\.0 \| 0\.0 \| - \|\n\| all of these \|")
        self.assertIn("longest chain of proofs, 0.0 minutes: base, middle, top\n", out)
        self.assertEqual(sorted(self.tree.rglob("*")), before)
        self.assertEqual(self.tool("figures"), (0, out, ""))
        self.assertEqual(len(self.calls()), 3)

    def test_some_crates_and_then_the_others(self):
        (self.control / "works").touch()
        self.assertEqual(self.tool("figures", "--crates", "middle")[0], 0)
        self.assertEqual([*self.rows()], ["middle"])
        self.near(self.rows()["middle"][0], 0.3)
        self.assertEqual(self.tool("figures")[0], 0)
        self.assertEqual([*self.rows()], ["middle", "base", "top"])
        self.near(self.rows()["top"][0], 0.3)

    def test_a_fault_keeps_what_was_measured(self):
        (self.control / "fails middle").touch()
        code, out, err = self.tool("figures", "--jobs", "2")
        self.assertEqual((code, err), (2, "measured base\nmeasure-gate: middle: rt ended with status 1: 0 passed, 1 failed\n"))
        self.assertEqual([*self.rows()], ["base"])
        (self.control / "fails middle").unlink()
        self.assertEqual(self.tool("figures")[0], 2)
        self.assertEqual(self.tool("figures", "--jobs", "2")[0], 0)
        self.assertEqual([*self.rows()], ["base", "middle", "top"])
        self.assertEqual([line.split(" ")[0] for line in self.calls()], ["base", "middle", "middle", "top"])

    def test_a_run_that_is_ended_goes_on(self):
        self.tool("figures", "--crates", "base")
        (self.control / "slow").touch()
        for number in (signal.SIGTERM, signal.SIGINT):
            ran = self.start("figures")
            self.until(lambda: (self.control / "started").exists() and (self.control / "started").read_text())
            prover = int((self.control / "started").read_text())
            (self.control / "started").unlink()
            ran.send_signal(number)
            ran.communicate(timeout=300)
            self.assertEqual(ran.returncode, 128 + number)
            self.assertFalse(pathlib.Path(f"/proc/{prover}").exists())
        (self.control / "slow").unlink()
        self.assertEqual(self.tool("figures")[0], 0)
        self.assertEqual([*self.rows()], ["base", "middle", "top"])

    def until(self, holds):
        for _ in range(6000):
            if holds():
                return
            time.sleep(0.05)
        self.fail("it never came to that")

    def test_figures_of_one_kind_alone_stand_in_a_file(self):
        self.tool("figures", "--crates", "base")
        lib = self.tree / "crates/top/src/lib.rt"
        for change in (lambda: lib.write_text("one more"), lambda: (lib.write_text("one"), (self.control / "version").write_text("kit 2\n"))):
            change()
            code, _, err = self.tool("figures")
            self.assertEqual((code, err.count("\n")), (2, 1))
            self.assertIn("give another file", err)
        self.assertEqual([*self.rows()], ["base"])

    def test_a_prover_that_tells_too_little(self):
        (self.control / "mute").touch()
        code, _, err = self.tool("figures", "--crates", "base")
        self.assertEqual((code, err), (2, "measure-gate: base: rt didn't tell when its proof and its wrong bodies were done\n"))
        self.assertEqual(self.rows(), {})

    def file(self, name, jobs, *rows):
        heads = f"kit\tkit 1\nsources\ts\njobs\t{jobs}\n"
        (self.room / name).write_text(heads + "".join("\t".join(row) + "\n" for row in rows))
        return name

    def test_tables(self):
        before = self.file("before", 4, ("base", "m", "60.00", "-", "120.00"), ("top", "m", "600.00", "60.00", "-"), ("gone", "m", "30.00", "-", "-"))
        after = self.file("after", 4, ("base", "m", "30.00", "-", "120.00"), ("top", "m", "300.00", "0.00", "-"), ("new", "m", "6.00", "-", "-"))
        table = """| crate | proof | tests | wrong bodies |
|---|---|---|---|
| top | 10.0 | 1.0 | - |
| base | 1.0 | - | 2.0 |
| gone | 0.5 | - | - |
| all of these | 11.5 | 1.0 | 2.0 |

longest chain of proofs, 11.0 minutes: base, middle, top
"""
        self.assertEqual(self.tool(before, "--table"), (0, table, ""))
        changes = """a change in base, on which 1 stand: proofs 11.0, tests 1.0, its wrong bodies 2.0 (of all these 2.0)
a change in top, on which 0 stand: proofs 10.0, tests 1.0, its wrong bodies 0.0 (of all these 0.0)
"""
        self.assertEqual(self.tool(before, "--table", "--changes", "base", "top"), (0, table + changes, ""))
        compared = """| crate | proof | tests | wrong bodies | proof and tests |
|---|---|---|---|---|
| top | 10.0 to 5.0, 0.50 | 1.0 to 0.0, 0.00 | - | 11.0 to 5.0, 0.45 |
| base | 1.0 to 0.5, 0.50 | - | 2.0 to 2.0, 1.00 | 1.0 to 0.5, 0.50 |
| gone | 0.5 to - | - | - | 0.5 to - |
| new | - to 0.1 | - | - | - to 0.1 |
| all | 11.5 to 5.6, 0.49 | 1.0 to 0.0, 0.00 | 2.0 to 2.0, 1.00 | 12.5 to 5.6, 0.45 |
"""
        self.assertEqual(self.tool("--compare", before, after), (0, compared, ""))
        other = self.file("other", 1, ("base", "m", "30.00", "-", "120.00"))
        self.assertTrue(self.tool("--compare", before, other)[1].startswith("jobs: 4 before, and 1 after\n\n"))

    def test_faults(self):
        bad = self.file("bad", 1, ("base", "m", "x", "-", "-"))
        short = self.file("short", 1, ("base", "m", "1.00"))
        (self.room / "headless").write_text("kit\tkit 1\n")
        rows = [
            [bad, "--table"],
            [short, "--table"],
            ["headless", "--table"],
            ["none", "--table"],
            [self.file("empty", 1), "--table"],
            ["--compare", bad, bad],
            ["--compare", "none"],
            ["figures", "--compare", bad, bad],
            ["figures", "--jobs", "0"],
            ["figures", "--crates", "other"],
            ["figures", "--changes", "base"],
            [self.file("good", 1, ("base", "m", "1.00", "-", "-")), "--table", "--changes", "top"],
            [],
        ]
        for words in rows:
            code, out, err = self.tool(*words)
            self.assertEqual((code, out, err.count("\n")), (2, "", 1), words)
        self.assertFalse(self.figures.exists())


if __name__ == "__main__":
    unittest.main()
