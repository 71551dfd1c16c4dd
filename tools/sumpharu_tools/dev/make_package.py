"""Makes a Debian package of a proved program, with the manual page, the completion, the tools for operators and a systemd unit.

The program has to be the one that its stamp names, the file beside it that ends in .built and that the script sumpharu writes: proved of the very
sources that stand here. The work tree has to be as its commit has it. The same commit and program give the same bytes, by the same dpkg-deb. What
the package was proved from stands in its file /usr/share/doc/sumpharu/PROVED.
"""
from __future__ import annotations

import argparse
import gzip
import hashlib
import os
import pathlib
import re
import struct
import subprocess
import tempfile
import time
from dataclasses import dataclass
from typing import Dict, List, Mapping, NamedTuple, Optional

from ..clusters import Fault
from . import PROGRAM, ROOT

NAME = "sumpharu"
DOC = f"usr/share/doc/{NAME}"
MODULES = "usr/lib/python3/dist-packages/sumpharu_tools"
CONFFILES = {f"etc/default/{NAME}": "sumpharu.default"}
SCRIPTS = ("postinst", "prerm", "postrm")
# The pages that the manual and the tools' help name.
PAGES = ("FORMATS.md", "GLOSSARY.md", "GOALS.md", "KAFKA.md", "SERVICE.md")
# The architectures by the number that an ELF file has, and the packages of libraries.
ARCHITECTURES = {62: "amd64", 183: "arm64"}
LIBRARIES = {
    **{f"lib{name}": "libc6" for name in ("c.so.6", "dl.so.2", "m.so.6", "pthread.so.0", "rt.so.1")},
    "libgcc_s.so.1": "libgcc-s1",
}
CONTROL = """\
Package: {name}
Version: {version}
Architecture: {architecture}
Maintainer: the authors of Sumpharu <authors@sumpharu.invalid>
Section: admin
Priority: optional
{depends}Recommends: python3 (>= 3.8)
Installed-Size: {kilobytes}
Description: plans the partition moves that keep a Kafka cluster within its limits
 Sumpharu plans like Cruise Control for Apache Kafka, with a promise that is
 proved: /usr/share/doc/sumpharu/PROVED says from which sources and by which
 kit. The tools around it, sumpharu-tools, are in Python and aren't proved.
"""
PROVED = """\
/usr/bin/sumpharu was proved and built from these sources by this kit.

version: {version}
commit: {commit}
date of the commit: {date}
kit: {kit}
sources, SHA-256 as the script sumpharu makes it: {sources}
/usr/bin/sumpharu, SHA-256: {program}

'sha256sum /usr/bin/sumpharu' prints the last number. To prove it yourself, check this commit out and run ./sumpharu there. What is proved and what is
trusted says docs/PROVED.md there. The tools, the unit and the package itself aren't proved.
"""


class Entry(NamedTuple):
    """A file of the package."""

    data: bytes
    mode: int = 0o644


@dataclass(frozen=True)
class Stamp:
    """What the script wrote beside the program that it had proved and built: checksums, and the kit."""

    sources: str
    program: str
    kit: str


@dataclass(frozen=True)
class Commit:
    """What the work tree is at; the time is in seconds since 1970."""

    name: str
    time: int


def read(path: pathlib.Path) -> bytes:
    try:
        return path.read_bytes()
    except OSError as fault:
        raise Fault(f"{path}: {fault.strerror}") from fault


def output_of(words: List[str], room: pathlib.Path) -> str:
    """What a command prints; where it fails, what it says is the fault."""
    try:
        ran = subprocess.run(words, cwd=room, stdin=subprocess.DEVNULL, capture_output=True, text=True)
    except OSError as fault:
        raise Fault(f"{words[0]}: {fault.strerror}") from fault
    if ran.returncode:
        raise Fault(f"{' '.join(words[:2])}: {(ran.stderr or ran.stdout).strip()}")
    return ran.stdout


# What is proved


def files_below(root: pathlib.Path) -> List[str]:
    """The files that the program is made from, by their names from the root on."""
    found = [name for name in ("crates.txt", "HANDLES") if (root / name).is_file()]
    for folder, folders, names in os.walk(root / "crates", followlinks=True):
        place = pathlib.Path(folder).relative_to(root)
        if len(place.parts) == 2:
            folders[:] = [it for it in folders if it != "out"]
        found += [str(place / name) for name in names if (root / place / name).is_file()]
    return found


def sum_of(data: bytes) -> str:
    return hashlib.sha256(data).hexdigest()


def sum_of_sources(root: pathlib.Path) -> str:
    """The checksum of the names and bytes of all that the program is made from, as the script sumpharu makes it."""
    names = sorted(map(os.fsencode, files_below(root)))
    return sum_of(b"".join(sum_of(read(root / os.fsdecode(name))).encode() + b"  " + name + b"\n" for name in names))


def stamp_of(program: pathlib.Path) -> Stamp:
    path = program.with_name(f"{program.name}.built")
    if not path.exists():
        raise Fault(f"{path} isn't there: './sumpharu' writes it once it has proved and built the program")
    lines = read(path).decode(errors="replace").splitlines()
    if len(lines) != 3 or not all(re.fullmatch(r"[0-9a-f]{64}  -", line) for line in lines[:2]):
        raise Fault(f"{path} is no stamp of a program that was proved")
    return Stamp(lines[0].split()[0], lines[1].split()[0], lines[2])


def proved(program: pathlib.Path, root: pathlib.Path) -> Stamp:
    """The stamp of a program that was proved of the sources here; any other is refused."""
    stamp = stamp_of(program)
    if stamp.program != sum_of(read(program)):
        raise Fault(f"{program} isn't the program that was proved: its stamp names another")
    if stamp.sources != sum_of_sources(root):
        raise Fault(f"{program} was proved of other sources than these: './sumpharu' proves these")
    return stamp


def commit_of(root: pathlib.Path) -> Commit:
    """The commit of a work tree that is as the commit has it; any other is refused."""
    changed = output_of(["git", "status", "--porcelain"], root).splitlines()
    if changed:
        raise Fault(f"the work tree isn't as its commit has it: {changed[0][3:]}" + (f" and {len(changed) - 1} more" if changed[1:] else ""))
    name, seconds = output_of(["git", "log", "-1", "--format=%H %ct"], root).split()
    return Commit(name, int(seconds))


# What the program needs


def architecture_of(program: pathlib.Path) -> str:
    head = read(program)[:20]
    if len(head) < 20 or head[:4] != b"\x7fELF":
        raise Fault(f"{program} is no program of Linux")
    number = struct.unpack("<H", head[18:20])[0]
    if number not in ARCHITECTURES:
        raise Fault(f"{program} is for a machine that no package is made for")
    return ARCHITECTURES[number]


def linked_to(program: pathlib.Path) -> str:
    """What 'ldd -v' prints of a program: nothing where it needs no library."""
    how = {**os.environ, "LC_ALL": "C"}
    ran = subprocess.run(["ldd", "-v", str(program)], stdin=subprocess.DEVNULL, capture_output=True, text=True, env=how)
    if "statically linked" in ran.stdout or "not a dynamic executable" in ran.stderr:
        return ""
    if ran.returncode:
        raise Fault(f"ldd: {(ran.stdout + ran.stderr).strip()}")
    return ran.stdout


def needs_of(program: pathlib.Path, linked: str) -> Dict[str, Optional[str]]:
    """The packages of the libraries that 'ldd -v' names, each with the version that the program itself asks for, where it asks for one."""
    found: Dict[str, Optional[str]] = {}
    for name in re.findall(r"^\t(lib\S+) =>", linked, re.M):
        if name not in LIBRARIES:
            raise Fault(f"{program} needs {name}, of which no package is known here")
        found[LIBRARIES[name]] = None
    own = re.search(rf"^\t{re.escape(str(program))}:\n((?:\t\t.*\n)*)", linked, re.M)
    versions = re.findall(r"\(GLIBC_(\d+(?:\.\d+)+)\)", own[1]) if own else []
    if versions:
        found["libc6"] = max(versions, key=lambda it: [int(part) for part in it.split(".")])
    return found


# What the package has


def zipped(data: bytes) -> bytes:
    return gzip.compress(data, 9, mtime=0)


def contents(program: pathlib.Path, root: pathlib.Path) -> Dict[str, Entry]:
    """The files of the package, but for what it says of itself."""
    docs, package = root / "docs", root / "tools/package"
    found = {
        f"usr/bin/{NAME}": Entry(read(program), 0o755),
        "usr/bin/sumpharu-tools": Entry(read(package / "sumpharu-tools"), 0o755),
        f"usr/share/man/man1/{NAME}.1.gz": Entry(zipped(read(docs / "sumpharu.1"))),
        f"usr/share/bash-completion/completions/{NAME}": Entry(read(docs / "sumpharu.bash")),
        f"usr/lib/systemd/system/{NAME}.service": Entry(read(package / "sumpharu.service")),
        f"{DOC}/copyright": Entry(read(package / "copyright")),
    }
    found.update({path: Entry(read(package / name)) for path, name in CONFFILES.items()})
    found.update({f"{DOC}/docs/{name}": Entry(read(docs / name)) for name in PAGES})
    found.update({f"{MODULES}/{path.name}": Entry(read(path)) for path in (root / "tools/sumpharu_tools").glob("*.py")})
    found.update({f"usr/share/{NAME}/examples/{path.name}": Entry(read(path)) for path in (root / "examples").iterdir()})
    return found


def told_of(stamp: Stamp, commit: Commit, version: str) -> Entry:
    date = time.strftime("%Y-%m-%d %H:%M:%S UTC", time.gmtime(commit.time))
    text = PROVED.format(version=version, commit=commit.name, date=date, kit=stamp.kit, sources=stamp.sources, program=stamp.program)
    return Entry(text.encode())


def version_of(root: pathlib.Path) -> str:
    text = read(root / "docs/version.txt").decode().strip()
    found = re.fullmatch(rf"{NAME} (\d[\w.+~]*)", text)
    if not found:
        raise Fault(f"docs/version.txt names no version: {text}")
    return found[1]


def control_of(files: Mapping[str, Entry], version: str, architecture: str, needs: Mapping[str, Optional[str]]) -> Entry:
    named = [f"{name} (>= {least})" if least else name for name, least in sorted(needs.items())]
    depends = f"Depends: {', '.join(named)}\n" if named else ""
    kilobytes = sum(-(-len(it.data) // 1024) for it in files.values())
    text = CONTROL.format(name=NAME, version=version, architecture=architecture, depends=depends, kilobytes=kilobytes)
    return Entry(text.encode())


def with_control(files: Mapping[str, Entry], control: Entry, root: pathlib.Path) -> Dict[str, Entry]:
    sums = "".join(f"{hashlib.md5(files[path].data).hexdigest()}  {path}\n" for path in sorted(files))
    found = {**files, "DEBIAN/control": control, "DEBIAN/md5sums": Entry(sums.encode())}
    found["DEBIAN/conffiles"] = Entry("".join(f"/{path}\n" for path in CONFFILES).encode())
    found.update({f"DEBIAN/{name}": Entry(read(root / "tools/package" / name), 0o755) for name in SCRIPTS})
    return found


def write(room: pathlib.Path, files: Mapping[str, Entry], seconds: int) -> None:
    """Writes the files below a folder, with modes and times that don't depend on who does it and when."""
    for name, entry in files.items():
        path = room / name
        path.parent.mkdir(parents=True, exist_ok=True)
        path.write_bytes(entry.data)
        path.chmod(entry.mode)
    for path in [room, *room.rglob("*")]:
        if path.is_dir():
            path.chmod(0o755)
    for path in [*room.rglob("*"), room]:
        os.utime(path, (seconds, seconds))


def build(room: pathlib.Path, out: pathlib.Path, seconds: int) -> None:
    os.environ["SOURCE_DATE_EPOCH"] = str(seconds)
    output_of(["dpkg-deb", "--build", "--root-owner-group", "-Zxz", str(room), str(out.resolve())], ROOT)


def add_arguments(parser: argparse.ArgumentParser) -> None:
    parser.add_argument("--program", metavar="FILE", default=str(PROGRAM), help="the program, with its stamp FILE.built beside it; by default the built one")
    parser.add_argument("--out", metavar="FILE", help="the package; by default sumpharu_VERSION_ARCHITECTURE.deb, in the folder that you are in")


def run(arguments: argparse.Namespace) -> int:
    program = pathlib.Path(arguments.program).absolute()
    stamp, commit, version = proved(program, ROOT), commit_of(ROOT), version_of(ROOT)
    architecture, needs = architecture_of(program), needs_of(program, linked_to(program))
    files = contents(program, ROOT)
    files[f"{DOC}/PROVED"] = told_of(stamp, commit, version)
    out = pathlib.Path(arguments.out or f"{NAME}_{version}_{architecture}.deb")
    with tempfile.TemporaryDirectory() as folder:
        room = pathlib.Path(folder) / NAME
        write(room, with_control(files, control_of(files, version, architecture, needs), ROOT), commit.time)
        build(room, out, commit.time)
    print(out)
    return 0
