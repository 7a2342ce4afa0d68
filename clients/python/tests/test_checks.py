"""The checks fail if a part of the clients is skipped: what did not run has not passed."""

from __future__ import annotations

import shutil
import subprocess
import sys
import tempfile
import unittest
from pathlib import Path

from .support import PACKAGE

CHECKS = PACKAGE.parent.parent / "test"
SKIPPED = "skipped: the client of Go: there is no go here"


def told_of(*said: str, whole: bool) -> tuple[int, list[str]]:
    """The status of `./test clients`, and its lines, if the tests of the clients say this."""
    with tempfile.TemporaryDirectory() as name:
        folder = Path(name)
        shutil.copy(CHECKS, folder / "test")
        for script, lines in (("clients/test", said), (".ci/choose", (f"{folder}/itc_trace",))):
            made = folder / script
            made.parent.mkdir(exist_ok=True)
            made.write_text("\n".join(("#!/bin/sh", *(f"echo '{line}'" for line in lines), "")))
            made.chmod(0o700)
        words = [sys.executable, str(folder / "test"), *(["--whole"] if whole else []), "clients"]
        ran = subprocess.run(words, capture_output=True, text=True, check=False)
    return ran.returncode, ran.stdout.splitlines()


class Checks(unittest.TestCase):
    def test_a_part_of_the_clients_that_is_skipped_fails_the_checks(self) -> None:
        status, lines = told_of(SKIPPED, "clients: 7 passed", whole=True)
        self.assertEqual((status, lines[-1]), (1, "0 passed, 1 failed"), lines)
        self.assertIn(f"clients: wrong: a part is skipped: {SKIPPED.removeprefix('skipped: ')}", lines)

    def test_nothing_skipped_passes_the_checks(self) -> None:
        status, lines = told_of("clients: 7 passed", whole=True)
        self.assertEqual((status, lines[-1]), (0, "7 passed, 0 failed"), lines)

    def test_a_part_that_is_skipped_is_named_outside_of_the_checks(self) -> None:
        status, lines = told_of(SKIPPED, "clients: 7 passed", whole=False)
        self.assertEqual((status, lines[-1]), (0, "7 passed, 0 failed"), lines)
        self.assertIn(SKIPPED, lines)

    def test_the_packages_that_would_run_what_was_skipped_are_told_in_one_line(self) -> None:
        further = "skipped: the completion of fish: there is no fish here"
        named = "skipped: clients: there is no pyflakes3 here: apt-get install -y pyflakes3"
        _, lines = told_of(SKIPPED, further, named, further, "clients: 7 passed", whole=False)
        self.assertEqual(lines[-3], "to run what was skipped: apt-get install -y golang-go fish pyflakes3")
        _, lines = told_of("clients: 7 passed", whole=False)
        self.assertFalse([line for line in lines if "apt-get" in line])


if __name__ == "__main__":
    unittest.main()
