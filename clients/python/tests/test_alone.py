"""Small programs that are run by themselves have the same output, standard error and status traced as untraced."""

from __future__ import annotations

import os
import re
import subprocess
import tempfile
import unittest
from pathlib import Path
from typing import NamedTuple

from .same import ADDRESS, FORMS
from .support import PACKAGE, run_python

OWN = "itc_trace:"
"""So begin the lines of the package on standard error. Those of a finding follow, with spaces in front."""
MODULE = "-m"


class Alone(NamedTuple):
    """A program, the options of its interpreter, and its own words."""

    name: str
    options: list[str]
    words: list[str]
    text: str


def programs() -> list[Alone]:
    """Those of the file: each stands behind a line with its name, the options and the words."""
    parts = re.split(r"^== (.*)\n", Path(PACKAGE, "tests", "programs", "alone.txt").read_text(), flags=re.MULTILINE)
    found = []
    for head, text in zip(parts[1::2], parts[2::2]):
        name, options, words = (*(part.strip() for part in head.split("|")), "", "")[:3]
        found.append(Alone(name, options.split(), words.split(), text))
    return found


class Done(NamedTuple):
    """What a program did, and what the package has said of it."""

    status: int
    output: str
    errors: str
    said: str


def done(one: Alone, hooks: str | None) -> Done:
    """What the program does untraced, or with the hooks of a form."""
    with tempfile.TemporaryDirectory() as folder:
        folder = os.path.realpath(folder)
        program = os.path.join(folder, f"{one.name}.py")
        Path(program).write_text(one.text)
        options = [option for option in one.options if option != MODULE]
        words = [MODULE, one.name] if MODULE in one.options else [program]
        traced = [] if hooks is None else ["-m", "itc_trace", "run", "--all"]
        variables = {} if hooks is None else {"ITC_TRACE_PURE": FORMS[hooks]}
        ran = run_python(*options, *traced, *words, *one.words, cwd=folder, TMPDIR=folder, **variables)
    errors, said = _apart(ran)
    return Done(ran.returncode, _without(ran.stdout, folder), _without(errors, folder), said)


def _apart(ran: subprocess.CompletedProcess[str]) -> tuple[str, str]:
    """What the program has written to standard error, and what the package has."""
    own, said = [], []
    is_said = False
    for line in ran.stderr.splitlines():
        is_said = line.startswith(OWN) or is_said and line.startswith("    ")
        (said if is_said else own).append(line)
    return "\n".join(own), "\n".join(said)


def _without(text: str, folder: str) -> str:
    return ADDRESS.sub("0x", text.replace(folder, ""))


class AloneOrTraced(unittest.TestCase):
    maxDiff = None

    def test_programs_end_as_they_do_untraced(self) -> None:
        for one in programs():
            plain = done(one, None)
            for hooks in FORMS:
                with self.subTest(program=one.name, hooks=hooks):
                    traced = done(one, hooks)
                    self.assertEqual(traced[:3], plain[:3], traced.said)
                    self.assertIn("no race in this run", traced.said, traced.said)


if __name__ == "__main__":
    unittest.main()
