"""What the packages hold: the package of Python with the released program, the picture and the agent of Java in it, and who it is by."""

from __future__ import annotations

import hashlib
import re
import subprocess
import sys
from collections.abc import Iterator
from pathlib import Path
from typing import NamedTuple

import agent

TOP = Path(__file__).resolve().parent.parent
PACKAGE = "itc_trace"
PROGRAM = TOP / "release" / "itc_trace"
SUMMARY = "Finds the races of programs by the order of their events"
MAINTAINER = "Hometturi maintainers <maintainers@users.noreply.hometturi.example>"
ENTRY = "itc_trace.cli.command:main"


class File(NamedTuple):
    """A file of a package, by its path below the folder where packages of Python lie."""

    path: str
    content: bytes
    is_command: bool = False


class Damaged(Exception):
    """The released program is not the file that was released."""


def released_program() -> bytes:
    """The program, if it is the one that was released."""
    content = PROGRAM.read_bytes()
    line = f"{hashlib.sha256(content).hexdigest()}  {PROGRAM.name}"
    if line not in (TOP / "release" / "SHA256SUMS").read_text().splitlines():
        raise Damaged(f"{PROGRAM} is not the file that was released: git checkout release brings it back")
    return content


def files() -> Iterator[File]:
    """The package of Python, and beside its modules what it looks for in a repository: the program, the picture and the agent of Java."""
    source = TOP / "clients" / "python" / PACKAGE
    for path in sorted(source.rglob("*")):
        if path.suffix in (".py", ".c") or path.name == "py.typed":
            yield File(f"{PACKAGE}/{path.relative_to(source)}", path.read_bytes())
    yield File(f"{PACKAGE}/itc_trace", released_program(), is_command=True)
    yield File(f"{PACKAGE}/picture", (TOP / "picture").read_bytes(), is_command=True)
    yield File(f"{PACKAGE}/browser/picture.html", (TOP / "browser" / "picture.html").read_bytes())
    yield File(f"{PACKAGE}/crates.txt", (TOP / "crates.txt").read_bytes())
    jar = agent.built()
    if jar is not None:
        yield File(f"{PACKAGE}/{agent.NAME}", jar)


def licenses() -> dict[str, bytes]:
    """The licence of the package, and those of others whose work is in it, by the names of their files."""
    of_others = {} if agent.built() is None else {agent.LICENSE.name: agent.LICENSE.read_bytes()}
    return {"LICENSE": (TOP / "LICENSE").read_bytes(), **of_others}


def version() -> str:
    """That of the program, which all packages have."""
    told = subprocess.run([PROGRAM, "--version"], capture_output=True, text=True, check=True).stdout
    return told.split()[1]


def glibc() -> str:
    """The earliest version of glibc with which the program runs."""
    versions = re.findall(rb"GLIBC_(\d+)\.(\d+)", released_program())
    major, minor = max((int(major), int(minor)) for major, minor in versions)
    return f"{major}.{minor}"


def folder_typed(words: list[str], what: str) -> Path:
    """The folder that is named behind a command of this folder. Any other words end it with its usage."""
    if len(words) != 2 or words[1].startswith("-"):
        is_help = words[1:2] in (["--help"], ["-h"])
        print(f"usage: {words[0]} FOLDER: writes the {what} there", file=sys.stdout if is_help else sys.stderr)
        sys.exit(0 if is_help else 2)
    return Path(words[1])
