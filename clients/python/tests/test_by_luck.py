"""A race that a hand-over hides in one order of its tasks is told in both: as a race, as possible, or by its count."""

from __future__ import annotations

import json
import os
import subprocess
import sys
import unittest
from typing import Any

from itc_trace.watch import helper

from .by_luck import ANSWERED, ASKED, LOCKS, MEANT, POLLS, programs
from .support import PACKAGE, WAIT


class ByLuck(unittest.TestCase):
    def check(self, form: str) -> None:
        environment = {**os.environ, "PYTHONPATH": str(PACKAGE), "ITC_TRACE_PURE": form}
        words = [sys.executable, "-m", "tests.by_luck"]
        ran = subprocess.run(words, cwd=PACKAGE, env=environment, capture_output=True, text=True, timeout=WAIT, check=False)
        self.assertEqual(ran.returncode, 0, ran.stderr)
        found: dict[str, dict[str, dict[str, Any]]] = json.loads(ran.stdout.splitlines()[-1])
        for name, orders in found.items():
            for order, told in orders.items():
                with self.subTest(table=name, order=order):
                    self.assertEqual((told["faults"], told["further"] if name != "meant" else []), ({}, []))
        for name in ("locks", "asked"):
            self.assertEqual([told["untold"] for told in found[name].values()], [[], []])
        self.assertEqual(found["polls"]["the other way"]["untold"], [])
        self.assertEqual(found["meant"]["as hidden"]["races"], [])

    @unittest.skipIf(helper.quick is None, "there is no compiler here, or another Python")
    def test_hooks_in_c_tell_each_pair(self) -> None:
        self.check("")

    def test_hooks_in_python_tell_each_pair(self) -> None:
        self.check("1")

    def test_there_are_forty_with_what_each_table_has(self) -> None:
        self.assertGreaterEqual(sum(len(programs(table)) for table in (LOCKS, ASKED, POLLS)), 40)
        texts = [one.source for table in (LOCKS, ASKED, POLLS, ANSWERED, MEANT) for one in programs(table)]
        self.assertEqual(len(set(texts)), len(texts))


if __name__ == "__main__":
    unittest.main()
