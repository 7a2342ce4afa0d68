"""Tests of the standard library that use threads and asyncio pass while they are traced."""

from __future__ import annotations

import importlib.util
import unittest

from .support import run_traced

HAS_TESTS = importlib.util.find_spec("test") is not None and importlib.util.find_spec("test.test_queue") is not None


@unittest.skipUnless(HAS_TESTS, "this Python came without its tests")
class Library(unittest.TestCase):
    def test_queues_pass_their_own_tests(self) -> None:
        self.assert_passing("test.test_queue")

    def test_asyncio_passes_its_own_tests_of_queues_and_locks(self) -> None:
        self.assert_passing("test.test_asyncio.test_queues", "test.test_asyncio.test_locks")

    def assert_passing(self, *modules: str) -> None:
        ran = run_traced("-m", "unittest", *modules)
        self.assertEqual(ran.returncode, 0, ran.stderr[-2000:])
        left = r"(itc_trace: left at the end: [^\n]*\n)?"
        self.assertRegex(ran.stderr, rf"\nOK[^\n]*\n{left}itc_trace: no race in this run: 0 places of 0 things, \d+ events")


if __name__ == "__main__":
    unittest.main()
