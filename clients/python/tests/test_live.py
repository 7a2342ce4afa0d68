"""Programs of which much comes and goes are seen whole, and their memory stays within bounds: see measure_live.py."""

from __future__ import annotations

import unittest

import measure_live

from .support import ProgramCase

NAMES = "keys", "gather", "one_lock"
SIZES = {"keys": 8_000, "gather": 400, "one_lock": 400}
MEGABYTES, OF_COLLECTOR = 90, 40
"""Of the program and of the collector. Without what keeps them small, 400 tasks with one lock take 67 of the collector."""


class Live(ProgramCase):
    def test_each_is_whole_and_small(self) -> None:
        for name in NAMES:
            with self.subTest(name):
                program = measure_live.PROGRAMS[name]
                told = measure_live.traced(self.program(program.source), program, SIZES[name])
                self.assertEqual(told.verdict, "whole", told.errors)
                self.assertLess(told.megabytes, MEGABYTES)
                self.assertLess(told.of_collector, OF_COLLECTOR)
                self.assertGreater(told.of_collector, 0)


if __name__ == "__main__":
    unittest.main()
