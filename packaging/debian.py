"""Writes the Debian package: the program, its manual and completions, the package of Python, the agent of Java, and `itc-trace`.

Usage: packaging/debian.py FOLDER. It wants dpkg-deb, and writes where the package is. Without javac and ASM the agent is left out, which
a line says.
"""

from __future__ import annotations

import gzip
import os
import subprocess
import sys
import tempfile
from pathlib import Path

import agent
import completions
import manual
from contents import MAINTAINER, PACKAGE, SUMMARY, files, folder_typed, glibc, licenses, released_program, version
from words import of_the_command, of_the_program

MODULES = "usr/lib/python3/dist-packages"
COMMAND = "#!/usr/bin/python3\nimport sys\n\nfrom itc_trace.cli.command import main\n\nsys.exit(main())\n"
DATE = "315532800"


def control(kilobytes: int) -> str:
    suggested = "" if agent.built() is None else "Suggests: default-jre-headless (>= 2:1.17)\n"
    return (
        f"Package: itc-trace\nVersion: {version()}\nArchitecture: amd64\nMaintainer: {MAINTAINER}\nInstalled-Size: {kilobytes}\n"
        f"Depends: libc6 (>= {glibc()}), python3 (>= 3.11)\n{suggested}Section: devel\nPriority: optional\nDescription: {SUMMARY}\n"
        " The collector takes what tasks do, and answers which of their events are in order.\n"
        " The package of Python runs a program with tracing on, and lists its races.\n"
    )


def contents() -> dict[str, tuple[bytes, int]]:
    """Each file by its path, with its mode."""
    held = {f"{MODULES}/{file.path}": (file.content, 0o755 if file.is_command else 0o644) for file in files()}
    held["usr/bin/itc_trace"] = (released_program(), 0o755)
    held["usr/bin/itc-trace"] = (COMMAND.encode(), 0o755)
    for line in (of_the_program(), of_the_command()):
        held[f"usr/share/man/man1/{line.name}.1.gz"] = (gzip.compress(manual.page(line).encode(), mtime=0), 0o644)
        held[f"usr/share/bash-completion/completions/{line.name}"] = (completions.bash(line).encode(), 0o644)
        held[f"usr/share/zsh/vendor-completions/_{line.name}"] = (completions.zsh(line).encode(), 0o644)
        held[f"usr/share/fish/vendor_completions.d/{line.name}.fish"] = (completions.fish(line).encode(), 0o644)
    held["usr/share/doc/itc-trace/copyright"] = (copyright().encode(), 0o644)
    return held


def copyright() -> str:
    """The licence of the package. What others have licensed follows it, with the file that has it."""
    own, *of_others = (text.decode() for text in licenses().values())
    return "".join([own, *(f"\n{'-' * 80}\n\nOf classes in /{MODULES}/{PACKAGE}/{agent.NAME}:\n\n{text}" for text in of_others)])


def write(target: Path) -> Path:
    target.mkdir(parents=True, exist_ok=True)
    package = target / f"itc-trace_{version()}_amd64.deb"
    held = contents()
    with tempfile.TemporaryDirectory() as root:
        size = sum(len(content) for content, _ in held.values()) // 1024
        for path, (content, mode) in {**held, "DEBIAN/control": (control(size).encode(), 0o644)}.items():
            file = Path(root) / path
            file.parent.mkdir(parents=True, exist_ok=True)
            file.write_bytes(content)
            file.chmod(mode)
        os.chmod(root, 0o755)
        environment = {**os.environ, "SOURCE_DATE_EPOCH": DATE}
        subprocess.run(["dpkg-deb", "--root-owner-group", "--build", root, str(package)], env=environment, check=True, capture_output=True)
    return package


if __name__ == "__main__":
    print(write(folder_typed(sys.argv, "package of Debian")))
    agent.tell_if_left_out()
