"""No crate above has a receipt of a copy but from copy_chunk: one that builds, clones, copies or changes one isn't compiled."""
import pathlib
import re
import shutil
import subprocess
import tempfile
import unittest

from places import ROOT


FORGER = """use cluster_gate::Receipt;

pub fn built() -> Receipt {
    Receipt {
        lease: 1,
        part: 0,
        to: 1,
        chunk: 0,
    }
}

pub fn cloned(receipt: &Receipt) -> Receipt {
    receipt.clone()
}

pub fn copied(receipt: &Receipt) -> Receipt {
    *receipt
}

pub fn changed(mut receipt: Receipt) -> Receipt {
    receipt.chunk += 1;
    receipt
}
"""
REFUSED = [
    (5, "private-field"),
    (6, "private-field"),
    (7, "private-field"),
    (8, "private-field"),
    (13, "unsupported-method"),
    (17, "move-out-of-place"),
    (21, "private-field"),
]


def libraries():
    """Each crate's libraries, by the table of crates; those of the kit are none of them."""
    lines = (line.partition("#")[0] for line in (ROOT / "crates.txt").read_text().splitlines())
    rows = (line.partition(":") for line in lines if ":" in line)
    return {head.split()[0]: names.split() for head, _, names in rows}


def below(name, known):
    """A crate with all below it."""
    found = {name}
    for other in known[name]:
        if other in known:
            found |= below(other, known)
    return found


@unittest.skipUnless(shutil.which("rt"), "the kit's rt isn't on the path")
class Receipts(unittest.TestCase):
    def setUp(self):
        room = tempfile.TemporaryDirectory()
        self.addCleanup(room.cleanup)
        self.room = pathlib.Path(room.name)

    def test_only_copy_chunk_makes_one(self):
        known = libraries()
        needed = sorted(below("cluster_gate", known))
        for name in needed:
            shutil.copytree(ROOT / "crates" / name, self.room / "crates" / name, ignore=shutil.ignore_patterns("out"))
        rows = [f"{name}: {' '.join(known[name])}" for name in needed] + [f"forger: {' '.join(needed)}"]
        (self.room / "crates.txt").write_text("\n".join(rows) + "\n")
        forger = self.room / "crates/forger"
        (forger / "src").mkdir(parents=True)
        (forger / "src/lib.rt").write_text(FORGER)
        ran = subprocess.run(["rt", "check"], cwd=forger, capture_output=True, text=True, timeout=300)
        told = ran.stdout + ran.stderr
        self.assertNotEqual(ran.returncode, 0, told)
        errors = re.findall(r"^src/lib\.rt:(\d+):\d+: error\[([\w-]+)\]", told, re.M)
        self.assertEqual([(int(line), kind) for line, kind in errors], REFUSED, told)


if __name__ == "__main__":
    unittest.main()
