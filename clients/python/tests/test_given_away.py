"""What one task alone has reached until it puts it into a container is handed over, and what others reach is not."""

from __future__ import annotations

import json
import os
import subprocess
import sys
import unittest

from itc_trace.watch import helper

from .given_away import CLEAN, RACING, RUNS
from .support import PACKAGE, WAIT


def told(form: str) -> set[tuple[str, int]]:
    """What a process with hooks of this form has told, in each run of each program."""
    environment = {**os.environ, "PYTHONPATH": str(PACKAGE), "ITC_TRACE_PURE": form}
    words = [sys.executable, "-m", "tests.given_away"]
    ran = subprocess.run(words, cwd=PACKAGE, env=environment, capture_output=True, text=True, timeout=WAIT, check=False)
    if ran.returncode:
        raise AssertionError(ran.stderr)
    return {(name, run) for name, run in json.loads(ran.stdout.splitlines()[-1])}


class GivenAway(unittest.TestCase):
    def check(self, form: str) -> None:
        found = told(form)
        wanted = {(program.name, run) for program in RACING for run in range(RUNS)}
        self.assertEqual(sorted(found - wanted), [], "a race was told of what was handed over")
        self.assertEqual(sorted(wanted - found), [], "no race was told of what others reach")
        self.assertEqual(len({program.name for program in CLEAN + RACING}), len(CLEAN + RACING))

    @unittest.skipIf(helper.quick is None, "there is no compiler here, or another Python")
    def test_hooks_in_c(self) -> None:
        self.check("")

    def test_hooks_in_python(self) -> None:
        self.check("1")


if __name__ == "__main__":
    unittest.main()
