"""The Debian package, made in a checkout of its own of a program that only pretends, and the unit that it has."""
import configparser
import hashlib
import os
import pathlib
import re
import shutil
import subprocess
import sys
import tempfile
import unittest

from places import ROOT, copy_tools
from sumpharu_tools import table
from sumpharu_tools.clusters import Fault
from sumpharu_tools.dev import make_package

UNIT = ROOT / "tools/package/sumpharu.service"
KIT = "kit 1 of the tests"
IDENTITY = {f"GIT_{who}_{what}": "tests@example.invalid" for who in ("AUTHOR", "COMMITTER") for what in ("NAME", "EMAIL")}
# What 'ldd -v' prints of a program that needs two libraries.
LINKED = """\
\tlinux-vdso.so.1 (0x00007f2c0bcb7000)
\tlibgcc_s.so.1 => /lib/x86_64-linux-gnu/libgcc_s.so.1 (0x00007f2c0ba98000)
\tlibc.so.6 => /lib/x86_64-linux-gnu/libc.so.6 (0x00007f2c0bab8000)
\t/lib64/ld-linux-x86-64.so.2 (0x00007f2c0bcb9000)

\tVersion information:
\t/a/program:
\t\tlibgcc_s.so.1 (GCC_3.0) => /lib/x86_64-linux-gnu/libgcc_s.so.1
\t\tlibc.so.6 (GLIBC_2.9) => /lib/x86_64-linux-gnu/libc.so.6
\t\tlibc.so.6 (GLIBC_2.34) => /lib/x86_64-linux-gnu/libc.so.6
\t\tlibc.so.6 (GLIBC_2.3.4) => /lib/x86_64-linux-gnu/libc.so.6
\t/lib/x86_64-linux-gnu/libgcc_s.so.1:
\t\tlibc.so.6 (GLIBC_2.35) => /lib/x86_64-linux-gnu/libc.so.6
"""


@unittest.skipUnless(shutil.which("dpkg-deb"), "dpkg-deb isn't on the path")
class Package(unittest.TestCase):
    maxDiff = None

    @classmethod
    def setUpClass(cls):
        cls.room = pathlib.Path(tempfile.mkdtemp(prefix="sumpharu test "))
        cls.addClassCleanup(shutil.rmtree, cls.room)
        cls.tree = cls.room / "a tree"
        copy_tools(cls.tree)
        for name in ("docs", "examples", "tools/package"):
            shutil.copytree(ROOT / name, cls.tree / name)
        shutil.copy(ROOT / ".gitignore", cls.tree / ".gitignore")
        for name in ("crates.txt", "HANDLES", "crates/base/src/lib.rt", "crates/base/specs/A.antt"):
            cls.write(name, f"{name}\n")
        # a program for Linux, which need not be run
        out = cls.tree / "crates/sumpharu/out"
        out.mkdir(parents=True)
        shutil.copy(os.path.realpath(shutil.which("true")), out / "sumpharu")
        cls.program = out / "sumpharu"
        cls.git("init", "--quiet")
        cls.git("add", "--all")
        cls.git("commit", "--quiet", "--message=first")

    @classmethod
    def write(cls, name, text):
        (cls.tree / name).parent.mkdir(parents=True, exist_ok=True)
        (cls.tree / name).write_text(text)

    @classmethod
    def git(cls, *words):
        how = {"cwd": cls.tree, "check": True, "capture_output": True, "text": True, "timeout": 60, "env": {**os.environ, **IDENTITY}}
        return subprocess.run(["git", *words], **how).stdout.strip()

    def setUp(self):
        self.stamp(self.program)

    def stamp(self, program, sources=None):
        """Has a program beside which stands that it was proved of the sources here."""
        found = hashlib.sha256(program.read_bytes()).hexdigest()
        sources = sources or make_package.sum_of_sources(self.tree)
        program.with_name(f"{program.name}.built").write_text(f"{sources}  -\n{found}  -\n{KIT}\n")

    def tool(self, *words, umask=0o022):
        how = {"capture_output": True, "text": True, "cwd": self.room, "timeout": 120, "preexec_fn": lambda: os.umask(umask)}
        ran = subprocess.run([self.tree / "sumpharu-tools", "make-package", *words], **how)
        return ran.returncode, ran.stdout, ran.stderr

    def expect_refusal(self, why, *words):
        code, out, err = self.tool(*words)
        self.assertEqual((code, out, err.count("\n")), (2, "", 1), err)
        self.assertIn(why, err)
        self.assertEqual([*self.room.glob("*.deb")], [])

    def read_package(self, path, *words):
        return subprocess.run(["dpkg-deb", *words, path], check=True, capture_output=True, timeout=60).stdout

    def test_contents(self):
        out = self.room / "out.deb"
        self.addCleanup(out.unlink)
        self.assertEqual(self.tool("--out", str(out)), (0, f"{out}\n", ""))
        rows = [line.split(maxsplit=5) for line in self.read_package(out, "-c").decode().splitlines()]
        self.assertEqual({row[1] for row in rows}, {"root/root"})
        modes = {row[5]: row[0] for row in rows if not row[5].endswith("/")}
        programs = {"./usr/bin/sumpharu", "./usr/bin/sumpharu-tools"}
        for name, mode in modes.items():
            self.assertEqual(mode, "-rwxr-xr-x" if name in programs else "-rw-r--r--", name)
        self.assertEqual({row[0] for row in rows if row[5].endswith("/")}, {"drwxr-xr-x"})
        doc = "./usr/share/doc/sumpharu"
        wanted = programs | {f"{doc}/copyright", f"{doc}/PROVED", f"{doc}/docs/FORMATS.md", "./etc/default/sumpharu"}
        wanted |= {"./usr/lib/systemd/system/sumpharu.service", "./usr/share/man/man1/sumpharu.1.gz"}
        wanted |= {"./usr/share/bash-completion/completions/sumpharu", "./usr/share/sumpharu/examples/three-zones.json"}
        self.assertEqual(wanted - set(modes), set())
        modules = {name.rpartition("/")[2] for name in modes if "/sumpharu_tools/" in name}
        self.assertEqual(modules, {path.name for path in (ROOT / "tools/sumpharu_tools").glob("*.py")})
        self.assertLessEqual({f"{name.replace('-', '_')}.py" for name in table.OPERATORS}, modules)
        self.assertEqual([name for name in modes if "/dev/" in name or "__pycache__" in name], [])

    def test_what_it_says_of_itself(self):
        out = self.room / "out.deb"
        self.addCleanup(out.unlink)
        self.tool("--out", str(out))
        fields = dict(line.split(": ", 1) for line in self.read_package(out, "-f").decode().splitlines() if not line.startswith(" "))
        self.assertEqual((fields["Package"], fields["Recommends"]), ("sumpharu", "python3 (>= 3.8)"))
        self.assertEqual(f"sumpharu {fields['Version']}", (ROOT / "docs/version.txt").read_text().strip())
        self.assertRegex(fields["Depends"], r"^libc6 \(>= 2\.\d+\)$")
        folder = self.room / "unpacked"
        self.addCleanup(shutil.rmtree, folder)
        subprocess.run(["dpkg-deb", "--raw-extract", out, folder], check=True, timeout=60)
        self.assertEqual((folder / "DEBIAN/conffiles").read_text(), "/etc/default/sumpharu\n")
        for line in (folder / "DEBIAN/md5sums").read_text().splitlines():
            found, name = line.split("  ")
            self.assertEqual(hashlib.md5((folder / name).read_bytes()).hexdigest(), found)
        text = (folder / "usr/share/doc/sumpharu/PROVED").read_text()
        program = hashlib.sha256(self.program.read_bytes()).hexdigest()
        for told in (f"commit: {self.git('rev-parse', 'HEAD')}", f"kit: {KIT}", f"SHA-256: {program}", make_package.sum_of_sources(self.tree)):
            self.assertIn(f"{told}\n", text)
        self.assertEqual((folder / "usr/bin/sumpharu").read_bytes(), self.program.read_bytes())
        self.expect_tools(folder)

    def expect_tools(self, folder):
        """The tools run from where they are unpacked, with the examples that stand there, and leave no file behind."""
        modules, entry = folder / make_package.MODULES, folder / "usr/bin/sumpharu-tools"
        before = sorted(modules.iterdir())
        text = f"import sys; sys.path.insert(0, {str(modules.parent)!r}); exec(open({str(entry)!r}).read())"
        how = {"cwd": folder / "usr/share/sumpharu/examples", "capture_output": True, "text": True, "timeout": 60, "env": {"PATH": os.environ["PATH"]}}
        ran = subprocess.run([sys.executable, "-I", "-c", text, "explain", "three-brokers.json", "RackAwareGoal"], **how)
        self.assertEqual((ran.returncode, ran.stderr), (1, ""))
        self.assertIn("RackAwareGoal: not met, measure 1\n", ran.stdout)
        self.assertEqual(sorted(modules.iterdir()), before)

    def test_the_same_bytes_twice(self):
        """Whoever makes it, and when; also of a program that stands elsewhere, with its stamp."""
        other = self.room / "elsewhere"
        shutil.copy(self.program, other)
        self.stamp(other)
        packages = [self.room / "one.deb", self.room / "two.deb", self.room / "sumpharu_0.1.0_amd64.deb"]
        for path in [other, self.room / "elsewhere.built", *packages]:
            self.addCleanup(path.unlink)
        self.assertEqual(self.tool("--out", str(packages[0]))[0], 0)
        for path in self.tree.rglob("*"):
            os.utime(path, (1, 1))
        self.assertEqual(self.tool("--out", str(packages[1]), umask=0o077)[0], 0)
        self.assertEqual(self.tool("--program", "elsewhere"), (0, f"{packages[2].name}\n", ""))
        self.assertEqual(len({path.read_bytes() for path in packages}), 1)

    def test_a_stale_program_is_refused(self):
        stamp = self.program.with_name("sumpharu.built")
        self.stamp(self.program, "0" * 64)
        self.expect_refusal("was proved of other sources than these")
        self.stamp(self.program)
        before = self.program.read_bytes()
        self.program.write_bytes(before + b"more")
        self.expect_refusal("isn't the program that was proved")
        self.program.write_bytes(before)
        stamp.write_text("none\n")
        self.expect_refusal("is no stamp")
        stamp.unlink()
        self.expect_refusal("sumpharu.built isn't there: './sumpharu' writes it")
        other = self.room / "elsewhere"
        self.addCleanup(other.unlink)
        other.write_bytes(before)
        self.stamp(self.program)
        self.expect_refusal("elsewhere.built", "--program", str(other))

    def test_what_is_no_program_is_refused(self):
        other = self.room / "elsewhere"
        other.write_text("#!/bin/sh\n")
        self.stamp(other)
        for path in (other, self.room / "elsewhere.built"):
            self.addCleanup(path.unlink)
        self.expect_refusal("is no program of Linux", "--program", str(other))

    def test_a_changed_tree_is_refused(self):
        rows = [("docs/help.txt", "the work tree isn't as its commit has it: docs/help.txt"), ("new", "the work tree isn't as its commit has it: new")]
        for name, why in rows:
            path = self.tree / name
            before = path.read_text() if path.exists() else None
            path.write_text("other\n")
            self.expect_refusal(why)
            path.unlink()
            if before is not None:
                path.write_text(before)
        self.write("crates/base/src/lib.rt", "other\n")
        self.expect_refusal("was proved of other sources than these")
        self.write("crates/base/src/lib.rt", "crates/base/src/lib.rt\n")


class Parts(unittest.TestCase):
    def test_needs(self):
        program = pathlib.Path("/a/program")
        self.assertEqual(make_package.needs_of(program, LINKED), {"libgcc-s1": None, "libc6": "2.34"})
        self.assertEqual(make_package.needs_of(program, ""), {})
        with self.assertRaisesRegex(Fault, "needs libz.so.1, of which no package is known"):
            make_package.needs_of(program, LINKED.replace("libgcc_s", "libz"))

    def test_unit(self):
        """The unit calls a command of the program with one option of its own, and keeps it apart from the rest of the machine."""
        text = UNIT.read_text()
        unit = configparser.ConfigParser(strict=False, interpolation=None)
        unit.optionxform = str
        unit.read_string(text)
        service = unit["Service"]
        self.assertEqual(service["ExecStart"].split()[:2], ["/usr/bin/sumpharu", "serve"])
        self.assertEqual(re.findall(r"(?<!\S)--[a-z]+", text), ["--forever"])
        default = (ROOT / "tools/package/sumpharu.default").read_text()
        variables = re.findall(r"^(\w+)=", default, re.M)
        self.assertEqual(variables, re.findall(r"\$\{?(\w+)", service["ExecStart"]))
        self.assertEqual(service["EnvironmentFile"], "/etc/default/sumpharu")
        example = re.search(r"^SUMPHARU_CLUSTER=/usr/share/sumpharu/(.*)$", default, re.M)[1]
        self.assertTrue((ROOT / example).exists())
        for name in ("DynamicUser", "NoNewPrivileges", "PrivateTmp", "ProtectHome", "MemoryDenyWriteExecute", "RestrictNamespaces"):
            self.assertEqual(service[name], "yes", name)
        self.assertEqual((service["ProtectSystem"], service["CapabilityBoundingSet"]), ("strict", ""))
        self.assertEqual(service["RestrictAddressFamilies"], "AF_INET AF_INET6")
        self.assertIn("SystemCallFilter=@system-service\n", text)
        self.assertEqual(unit["Install"]["WantedBy"], "multi-user.target")

    @unittest.skipUnless(shutil.which("systemd-analyze"), "systemd-analyze isn't on the path")
    def test_unit_is_known_to_systemd(self):
        """It finds no fault but that the program and its manual aren't installed here."""
        ran = subprocess.run(["systemd-analyze", "verify", UNIT], capture_output=True, text=True, timeout=60)
        faults = [line for line in ran.stderr.splitlines() if not re.search(r"Command (/usr/bin/sumpharu is not exec|'man )", line)]
        self.assertEqual(faults, [])

    def test_scripts_are_of_shell(self):
        for name in make_package.SCRIPTS:
            subprocess.run(["sh", "-n", ROOT / "tools/package" / name], check=True, timeout=60)


if __name__ == "__main__":
    unittest.main()
