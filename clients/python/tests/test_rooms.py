"""What a newcomer believes of the package's folders: that a folder depends on those above it alone, and that the page draws them."""

from __future__ import annotations

import ast
import re
import tempfile
import unittest
from pathlib import Path
from unittest import mock

import rooms

NAMED = re.compile(r"^\|.*?`((?:\w+/)+\w+\.py)` \| `(\w+)`", re.MULTILINE)
"""A row of a table that names a file, and what stands in it."""
PLANTED = {
    "model/__init__.py": "",
    "record/__init__.py": "",
    "model/at_once.py": "from ..record import low\n",
    "model/within.py": "def late() -> None:\n    from ..record.low import value\n",
    "model/for_types.py": "from typing import TYPE_CHECKING\n\nif TYPE_CHECKING:\n    import itc_trace.record.low\n",
    "record/low.py": "from .. import session\nfrom . import other\n",
    "record/other.py": "from .low import value\n",
    "session.py": "from .model import at_once\n",
}
"""A package in which each kind of import leads to a folder that stands higher."""


def names_of(file: Path) -> set[str]:
    """The functions, methods, classes and variables that a module has."""
    nodes = list(ast.walk(ast.parse(file.read_text(encoding="utf-8"))))
    functions = {one.name for one in nodes if isinstance(one, (ast.FunctionDef, ast.ClassDef))}
    return functions | {one.id for one in nodes if isinstance(one, ast.Name) and isinstance(one.ctx, ast.Store)}


class Rooms(unittest.TestCase):
    def test_no_folder_imports_from_one_below_it(self) -> None:
        self.assertEqual([f"{one.module}:{one.line} imports {one.imported}" for one in rooms.back_edges()], [])

    def test_no_modules_import_each_other(self) -> None:
        self.assertEqual(rooms.cycles(), [])

    def test_each_folder_is_drawn(self) -> None:
        folders = {path.parent.name for path in rooms.PACKAGE.glob("*/__init__.py")}
        self.assertEqual(folders, set(rooms.FOLDERS))

    def test_the_page_has_the_map_of_now(self) -> None:
        page = rooms.PAGE.read_text(encoding="utf-8")
        self.assertIn(rooms.BEGIN, page)
        self.assertEqual(rooms.written(page), page, "rooms.py --write writes it")

    def test_the_page_names_what_is_there(self) -> None:
        named = NAMED.findall(rooms.PAGE.read_text(encoding="utf-8"))
        self.assertGreater(len(named), 20)
        for file, name in named:
            with self.subTest(file=file, name=name):
                self.assertIn(name, names_of(rooms.PACKAGE / file))

    def test_imports_of_every_kind_are_seen(self) -> None:
        with tempfile.TemporaryDirectory() as folder:
            package = Path(folder) / "itc_trace"
            for name, text in PLANTED.items():
                (package / name).parent.mkdir(parents=True, exist_ok=True)
                (package / name).write_text(text, encoding="utf-8")
            with mock.patch.object(rooms, "PACKAGE", package):
                found = {(one.module, one.imported) for one in rooms.back_edges()}
                cycles = rooms.cycles()
        self.assertEqual(found, {
            ("model.at_once", "record.low"), ("model.within", "record.low"), ("model.for_types", "record.low"),
            ("session", "model.at_once"),
        })
        self.assertEqual(cycles, [["model.at_once", "record.low", "record.other", "session"]])


if __name__ == "__main__":
    unittest.main()
