"""Writes the wheel: the package of Python with the collector's program, the picture, the agent of Java and the command `itc-trace`.

A wheel is a zip with some files about itself, so it needs nothing but the standard library. Two of the same sources are the same file.

Usage: packaging/wheel.py FOLDER. It writes where the wheel is. Without javac and ASM the agent is left out, which a line says.
"""

from __future__ import annotations

import base64
import hashlib
import sys
import zipfile
from pathlib import Path

import agent
from contents import ENTRY, MAINTAINER, PACKAGE, SUMMARY, File, files, folder_typed, glibc, licenses, version

DATE = (1980, 1, 1, 0, 0, 0)
MODE, COMMAND_MODE = 0o100644, 0o100755
LICENSES = {"LICENSE": "Apache-2.0", agent.LICENSE.name: "BSD-3-Clause"}
"""The licences by their files, as SPDX names them."""


def tag() -> str:
    """For which machines it is. The program is for x86-64 Linux with glibc."""
    return f"py3-none-manylinux_{glibc().replace('.', '_')}_x86_64"


def about() -> list[File]:
    """The files that say what the wheel is, but for the list of all files."""
    maintainer, mail = MAINTAINER.rstrip(">").split(" <")
    metadata = (
        f"Metadata-Version: 2.1\nName: itc-trace\nVersion: {version()}\nSummary: {SUMMARY}\nMaintainer: {maintainer}\nMaintainer-email: {mail}\n"
        f"License: {' AND '.join(LICENSES[name] for name in licenses())}\nClassifier: Programming Language :: Python :: 3\nClassifier: Typing :: Typed\nRequires-Python: >=3.11\n"
    )
    wheel = f"Wheel-Version: 1.0\nGenerator: itc_trace\nRoot-Is-Purelib: false\nTag: {tag()}\n"
    entries = f"[console_scripts]\nitc-trace = {ENTRY}\n\n[pytest11]\nitc_trace = itc_trace.pytest_plugin\n"
    texts = {"METADATA": metadata, "WHEEL": wheel, "entry_points.txt": entries}
    held = {**{path: text.encode() for path, text in texts.items()}, **licenses()}
    return [File(f"{folder()}/{path}", content) for path, content in held.items()]


def folder() -> str:
    return f"{PACKAGE}-{version()}.dist-info"


def record(held: list[File]) -> File:
    """The list of all files, with the SHA-256 of each but its own."""
    lines = [f"{file.path},sha256={digest(file.content)},{len(file.content)}\n" for file in held]
    path = f"{folder()}/RECORD"
    return File(path, "".join([*lines, f"{path},,\n"]).encode())


def digest(content: bytes) -> str:
    return base64.urlsafe_b64encode(hashlib.sha256(content).digest()).rstrip(b"=").decode()


def name() -> str:
    return f"{PACKAGE}-{version()}-{tag()}.whl"


def write(target: Path) -> Path:
    target.mkdir(parents=True, exist_ok=True)
    held = [*files(), *about()]
    wheel = target / name()
    with zipfile.ZipFile(wheel, "w", zipfile.ZIP_DEFLATED) as archive:
        for file in [*held, record(held)]:
            entry = zipfile.ZipInfo(file.path, DATE)
            entry.external_attr = (COMMAND_MODE if file.is_command else MODE) << 16
            entry.compress_type = zipfile.ZIP_DEFLATED
            archive.writestr(entry, file.content)
    return wheel


if __name__ == "__main__":
    print(write(folder_typed(sys.argv, "wheel")))
    agent.tell_if_left_out()
