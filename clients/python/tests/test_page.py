"""What the page says of orders is shown by tests that are there."""

from __future__ import annotations

import importlib
import re
import unittest

from .slips import counts_by_chapter, rows
from .support import PACKAGE

PAGE = PACKAGE.parent.parent / "docs" / "python.md"


@unittest.skipUnless(PAGE.exists(), "the page is in the repository")
class Page(unittest.TestCase):
    def test_each_row_of_the_tables_of_orders_names_tests_that_are_there(self) -> None:
        rows = [line for line in PAGE.read_text().splitlines() if re.search(r"\| `test_\w+\.", line)]
        self.assertGreater(len(rows), 30)
        for row in rows:
            for module, name in re.findall(r"`(test_\w+)\.(\w+)`", row):
                with self.subTest(test=f"{module}.{name}"):
                    found = getattr(importlib.import_module(f"tests.{module}"), name)
                    self.assertTrue(unittest.defaultTestLoader.getTestCaseNames(found))

    def test_each_part_of_the_library_has_its_table(self) -> None:
        heads = " ".join(line for line in PAGE.read_text().splitlines() if line.endswith("| Shown by |"))
        for name in ("threading", "queue", "concurrent.futures", "asyncio", "multiprocessing"):
            self.assertIn(f"`{name}`", heads)
        for name in ("contextvars", "atexit.register"):
            self.assertIn(f"| `{name}` |", PAGE.read_text())

    def test_the_counts_of_what_is_seen_are_those_of_the_rows(self) -> None:
        self.assertIn(f"\n{counts_by_chapter((row, row.answer) for row in rows())}\n", PAGE.read_text())


if __name__ == "__main__":
    unittest.main()
