"""crates.txt: each crate lists the libraries that it names, and no other."""
import re
import unittest

from places import ROOT

# A comment of a .rt or of an .antt file.
COMMENT = re.compile(r"(//|--).*")


def listed():
    """The libraries of each crate, by its line."""
    lines = [line.partition("#")[0].strip() for line in (ROOT / "crates.txt").read_text().splitlines()]
    heads = [line.partition(":") for line in lines if line]
    return {head.split()[0]: libraries.split() for head, _, libraries in heads}


def text_of(crate):
    """Its sources, definitions and proofs without their comments."""
    files = [file for folder in ("src", "specs", "proofs") for file in (ROOT / "crates" / crate / folder).rglob("*") if file.suffix in (".rt", ".antt")]
    return "\n".join(COMMENT.sub("", line) for file in files for line in file.read_text().splitlines())


class Crates(unittest.TestCase):
    def test_each_folder_is_listed(self):
        self.assertEqual(sorted(listed()), sorted(it.parent.name for it in (ROOT / "crates").glob("*/src")))

    def test_each_library_is_named(self):
        for crate, libraries in listed().items():
            text = text_of(crate)
            unnamed = [it for it in libraries if not re.search(rf"\b{it}\b", text)]
            self.assertEqual(unnamed, [], crate)


if __name__ == "__main__":
    unittest.main()
