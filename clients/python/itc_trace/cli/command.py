"""The command `itc-trace`: the commands of the collector's program, those of the package, and the picture."""

from __future__ import annotations

import difflib
import os
import subprocess
import sys

from ..record.collector import NoCollector, find_in_repository, find_program
from ..record.faults import WORDS_REFUSED
from .commands import is_export
from .commands import main as of_the_package
from .program import NAME
from .program import main as of_the_program
from .saying import UNWRITTEN, say, write
from .table import COMMANDS, OPTIONS, told

OF_THE_PROGRAM = ("replay", "serve", "check", "load")
VERSIONS = ("--version", "-V")
PICTURE = "picture"
NAME_OF_PICTURE = "ITC_TRACE_PICTURE_NAME"
"""The variable of the environment by which the picture knows its name."""


def main() -> int:
    words = sys.argv[1:] or ["--help"]
    if words[0] == "help" and len(words) > 1:
        words = [*words[1:], "--help"]
        sys.argv[1:] = words
    if words[0] in ("--help", "-h", "help"):
        return 0 if write(told(NAME)) else UNWRITTEN
    if words[0] not in COMMANDS and words[0] not in OPTIONS:
        say(f"{NAME}: {_why_no_command(words[0])}")
        return WORDS_REFUSED
    try:
        return _run(words[0], words[1:], find_program())
    except NoCollector as fault:
        say(f"{NAME}: {fault}")
        return WORDS_REFUSED


def _why_no_command(word: str) -> str:
    if word.startswith("-"):
        return f"there is no option {word}: begin with a command, and type its options behind it: {_meant_by('')}"
    return f"there is no command {word or 'without a name'}: {_meant_by(word)}"


def _meant_by(word: str) -> str:
    if os.path.isfile(word) and word.endswith(".toml"):
        return f"to run a system, type `{NAME} system {word}`"
    like = difflib.get_close_matches(word.lower(), COMMANDS, 1)
    if like:
        return f"did you mean {like[0]}?"
    if os.path.isfile(word) and is_export(word):
        return f"to list the races of a trace, type `{NAME} races {word}`"
    if os.path.isfile(word):
        return f"to run a program, type `{NAME} run {word}`"
    return f"the commands are {', '.join(COMMANDS)}"


def _run(command: str, words: list[str], program: str) -> int:
    if command in VERSIONS:
        told = subprocess.run([program, command], stdout=subprocess.PIPE, text=True, check=False)
        return told.returncode if write(told.stdout) else UNWRITTEN
    if command in OF_THE_PROGRAM:
        return of_the_program(program, command, words)
    picture = find_in_repository(PICTURE)
    if command == PICTURE and picture is not None:
        environment = {**os.environ, "ITC_TRACE": program, NAME_OF_PICTURE: f"{NAME} {PICTURE}"}
        os.execve(sys.executable, [sys.executable, picture, *words], environment)
    return of_the_package(NAME)


if __name__ == "__main__":
    sys.exit(main())
