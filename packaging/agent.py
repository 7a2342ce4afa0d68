"""The agent that watches programs of Java, as the packages carry it.

It is built by javac and of Debian's ASM, where both are here.
"""

from __future__ import annotations

import functools
import os
import shutil
import subprocess
import sys
import tempfile
from pathlib import Path

FOLDER = Path(__file__).resolve().parent.parent / "clients" / "java" / "agent"
NAME = "itc-trace-agent.jar"
LICENSE = FOLDER / "LICENSE-ASM"
"""That of ASM, whose classes are in the agent."""
COMMANDS = ("java", "javac")


def missing() -> str | None:
    """Why the agent cannot be built here, if it cannot."""
    lacking = next((command for command in COMMANDS if shutil.which(command) is None), None)
    if lacking is not None:
        return f"there is no {lacking} here"
    has_asm = Path(os.environ.get("ITC_ASM", "/usr/share/java"), "asm.jar").is_file()
    return None if has_asm else "there is no ASM here"


@functools.cache
def built() -> bytes | None:
    """The agent, or nothing where it cannot be built. A fault of its build ends the package's."""
    return None if missing() else build()


def build() -> bytes:
    """Builds the agent anew."""
    with tempfile.TemporaryDirectory() as folder:
        jar = Path(folder) / NAME
        subprocess.run([FOLDER / "build", jar], check=True)
        return jar.read_bytes()


def tell_if_left_out() -> None:
    """A word to the builder of a package that has no agent."""
    if missing():
        print(f"the agent of Java is left out: {missing()}", file=sys.stderr)
