"""Wrong bodies: edits of a crate, wrong-bodies/CRATE/*.edit, each of which the prover has to refuse.

'rt ci' tries what stands in crates/CRATE/must-fail/, so they are put there for a run, and taken away behind it. wrong-bodies/tried.txt
begins with the kit's identity, and has a line a crate: its name, and the sum of its sources and wrong bodies as they were when each of
these was refused. A crate without the line of its present sum is stale, and each crate is where the kit's logic is another one.
"""
from __future__ import annotations

import contextlib
import fcntl
import hashlib
import os
import pathlib
import re
import subprocess
import sys
from typing import Dict, Iterable, Iterator, List, Optional, Set, Tuple

from ..clusters import Fault

# The wrong bodies by crate; a crate's sum, and what tells that a file was changed meanwhile.
Bodies = Dict[str, List[pathlib.Path]]
State = Tuple[str, List[Tuple[object, ...]]]

PARTS = ("src", "specs", "proofs")
NAME = re.compile(r"[A-Za-z0-9_-][A-Za-z0-9_.-]*\.edit")
# The file with a line a crate, and what is to take its place.
TRIED, TRIED_NEW = "tried.txt", "tried.new"
# The file that tells which others were put beside it. The prover reads none of its kind.
NOTE = "copies.md"
NOTE_SAYS = "Copies of wrong bodies, which stand here while a run tries them:"


def crates_of(root: pathlib.Path) -> Dict[str, List[str]]:
    """The crates of crates.txt, in its order, each with those of them that it names."""
    below = {}
    for line in (root / "crates.txt").read_text().splitlines():
        head, colon, names = line.partition("#")[0].partition(":")
        if colon and head.split():
            below[head.split()[0]] = names.split()
    return {name: [it for it in names if it in below] for name, names in below.items()}


def below_of(crate: str, known: Dict[str, List[str]]) -> Set[str]:
    """The crate and all below it."""
    left = [crate]
    found: Set[str] = set()
    while left:
        name = left.pop()
        if name not in found:
            found.add(name)
            left += known.get(name, ())
    return found


def bodies_of(root: pathlib.Path) -> Bodies:
    """The wrong bodies of each crate that has any, by the crate's name."""
    known, found = crates_of(root), {}
    for folder in sorted((root / "wrong-bodies").iterdir()):
        if folder.name in (TRIED, TRIED_NEW):
            continue
        if folder.name not in known or not folder.is_dir():
            raise Fault(f"wrong-bodies/{folder.name} is no folder of a crate of crates.txt")
        found[folder.name] = sorted(folder.iterdir())
        for path in found[folder.name]:
            if not NAME.fullmatch(path.name) or not path.is_file():
                raise Fault(f"{path.relative_to(root)} is no wrong body: its name has to be of letters, digits, _, - and . and end in .edit")
    return {name: bodies for name, bodies in found.items() if bodies}


def files_of(root: pathlib.Path, crate: str) -> List[pathlib.Path]:
    """What a verdict on the crate's wrong bodies reads of the repository, but for the crates below."""
    folders = [*(root / "crates" / crate / part for part in PARTS), root / "wrong-bodies" / crate]
    return sorted(path for folder in folders for path in folder.rglob("*") if path.is_file())


def sum_of(root: pathlib.Path, crate: str) -> str:
    """A checksum of the names and bytes of the crate's sources and wrong bodies."""
    total = hashlib.sha256()
    for path in files_of(root, crate):
        of_file = hashlib.sha256(path.read_bytes()).hexdigest()
        total.update(f"{path.relative_to(root)}\0{of_file}\0".encode())
    return total.hexdigest()


def state_of(root: pathlib.Path, crate: str) -> State:
    """The crate's sum, and what tells that a file was changed meanwhile, also where it was changed back."""
    stats = [(path, path.stat()) for path in files_of(root, crate)]
    return sum_of(root, crate), [(path, it.st_ino, it.st_size, it.st_mtime_ns, it.st_ctime_ns) for path, it in stats]


def kit_of() -> str:
    """The identity of the kit whose 'rt' is on the path."""
    try:
        ran = subprocess.run(["rt", "version"], capture_output=True, text=True)
    except OSError as fault:
        raise Fault(f"rt, the prover's command: {fault.strerror}") from fault
    kit = ran.stdout.strip()
    if ran.returncode or not kit or "\n" in kit:
        raise Fault(f"'rt version' failed: {(ran.stderr or ran.stdout).strip()}")
    return kit


def fault_of(folder: pathlib.Path, text: str) -> Optional[str]:
    """Why a wrong body of that text can't be applied to the crate in the folder, or None. The prover takes one that can't for none."""
    path, old, texts, pairs = None, None, {}, 0
    for line in text.split("\n"):
        word, _, rest = line.partition(":")
        rest = rest[1:] if rest.startswith(" ") else rest
        if word == "file":
            path, old = rest.strip(), None
            if path not in texts:
                if not path.startswith(PARTS) or not (folder / path).is_file():
                    return f"there is no file {path}"
                texts[path] = (folder / path).read_text()
        elif word == "old":
            old = rest
        elif word == "new":
            if not path or not old:
                return "a line 'new:' has no file or no old text"
            if texts[path].count(old) != 1:
                return f"an old text stands in {path} {texts[path].count(old)} times"
            texts[path] = texts[path].replace(old, rest)
            old, pairs = None, pairs + (rest != old)
    return None if pairs else "it changes nothing"


# What was tried


def logic_of(kit: str) -> str:
    """What a verdict on a wrong body depends on. Kits of the same logic differ in what else they can do."""
    return kit.rpartition(" logic ")[2]


def lines_of(root: pathlib.Path, kit: str) -> List[str]:
    """The lines of tried.txt, where a kit of this one's logic wrote them."""
    try:
        first, *lines = (root / "wrong-bodies" / TRIED).read_text().splitlines()
    except (FileNotFoundError, ValueError):
        return []
    return lines if logic_of(first) == logic_of(kit) else []


def stale(root: pathlib.Path, kit: str) -> List[str]:
    """The crates with wrong bodies that weren't all refused as things stand."""
    lines = set(lines_of(root, kit))
    return [crate for crate in bodies_of(root) if f"{crate} {sum_of(root, crate)}" not in lines]


def write_lines(root: pathlib.Path, kit: str, new: List[str]) -> None:
    """Writes the lines of some crates in place of theirs, and leaves those of the other crates that have wrong bodies."""

    def crate_in(line: str) -> str:
        return line.split(" ")[0]

    others = bodies_of(root).keys() - {crate_in(line) for line in new}
    kept = {line for line in lines_of(root, kit) if crate_in(line) in others}
    written = root / "wrong-bodies" / TRIED_NEW
    written.write_text("\n".join([kit, *sorted({*kept, *new})]) + "\n")
    os.replace(written, root / "wrong-bodies" / TRIED)


def is_refused(output: Iterable[str], crate: str, body: pathlib.Path) -> bool:
    """Whether the prover's output has one line on the wrong body, and says there that it was refused."""
    label = f"rt: must-fail {crate}/{body.name}: "
    said = [line for line in output if line.startswith(label)]
    return len(said) == 1 and said[0].startswith(f"{label}refused, as it must be")


# Where they stand while they are tried


def remove(root: pathlib.Path) -> None:
    """Takes away what was put where wrong bodies are tried. What else stands there stays."""
    for note in root.glob(f"crates/*/must-fail/{NOTE}"):
        for name in note.read_text().splitlines()[1:]:
            (note.parent / name).unlink(missing_ok=True)
        note.unlink()
    for folder in root.glob("crates/*/must-fail"):
        with contextlib.suppress(OSError):
            folder.rmdir()


def place(root: pathlib.Path, crates: Iterable[str]) -> None:
    """Puts the wrong bodies of these crates where 'rt ci' tries them, and of no other."""
    remove(root)
    for path in root.glob("crates/*/must-fail/*"):
        raise Fault(f"{path.relative_to(root)}: no file of yours may stand there: wrong bodies stand in wrong-bodies/{path.parent.parent.name}")
    bodies = bodies_of(root)
    for crate in crates:
        folder = root / "crates" / crate / "must-fail"
        folder.mkdir(exist_ok=True)
        (folder / NOTE).write_text("\n".join([NOTE_SAYS, *(body.name for body in bodies[crate])]) + "\n")
        for body in bodies[crate]:
            (folder / body.name).write_bytes(body.read_bytes())


@contextlib.contextmanager
def in_place(root: pathlib.Path, crates: Iterable[str]) -> Iterator[None]:
    """Has the wrong bodies of these crates where 'rt ci' tries them, once no other run of this checkout has any there."""
    folder = os.open(root / "wrong-bodies", os.O_RDONLY)
    try:
        try:
            fcntl.flock(folder, fcntl.LOCK_EX | fcntl.LOCK_NB)
        except BlockingIOError:
            print("waiting for another run that tries wrong bodies in this checkout", file=sys.stderr)
            fcntl.flock(folder, fcntl.LOCK_EX)
        try:
            place(root, crates)
            yield
        finally:
            remove(root)
    finally:
        os.close(folder)
