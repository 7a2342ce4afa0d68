"""What the tables of containers, methods and functions believe of the library: that it has them,
and that no two rows disagree."""

from __future__ import annotations

import collections
import importlib
import pkgutil
import sys
import unittest
import zlib
from typing import Any

from itc_trace.model.conflicts import CONFLICTING
from itc_trace.model import kinds, settings
from itc_trace.watch.both_languages import header
from itc_trace.watch.decisions import family_of, field_inside

LATER = {"itertools.batched"}
"""Functions that not each Python has for which the package is."""


def function_of(module: str, name: str) -> Any:
    """The function. `itertools.chain` is a class, which stands for a module here."""
    folder, _, last = module.rpartition(".")
    try:
        owner = importlib.import_module(module)
    except ModuleNotFoundError:
        owner = getattr(importlib.import_module(folder), last)
    return getattr(owner, name, None)


def type_of(names: tuple[str, str]) -> Any:
    """The type that is known by the names of its module and its own."""
    module, name = names
    found = getattr(importlib.import_module(module), name, None)
    return MADE[names]() if found is None else found if isinstance(found, type) else type(found())


MADE: dict[tuple[str, str], Any] = {
    ("zlib", "Compress"): lambda: type(zlib.compressobj()), ("zlib", "Decompress"): lambda: type(zlib.decompressobj()),
}
"""How to come by types that their module does not name."""


class Tables(unittest.TestCase):
    def test_no_method_of_a_kind_stands_in_two_rows(self) -> None:
        rows = collections.Counter(
            (kind, row.touched, row.when == kinds.IN_PLACE, name)
            for row in kinds._METHODS for kind in row.kinds or (None,) for name in row.names.split()
        )
        self.assertEqual([one for one, count in rows.items() if count > 1], [])

    def test_no_function_stands_in_two_rows(self) -> None:
        rows = collections.Counter((row.module, name) for row in kinds._FUNCTIONS for name in row.names.split())
        self.assertEqual([one for one, count in rows.items() if count > 1], [])

    def test_the_library_has_each_method(self) -> None:
        types = [kind for row in kinds.TYPES.values() for kind in row] + [kind for kind, _ in kinds.WITH_ONE_INSIDE]
        types += [kind for kind in map(type_of, kinds.TYPES_BY_NAME) if kind is not None]
        names = {name for row in kinds._METHODS if row.kinds for name in row.names.split()}
        self.assertEqual({name for name in names if not any(hasattr(kind, name) for kind in types)}, set())

    def test_the_library_has_each_function(self) -> None:
        for row in kinds._FUNCTIONS:
            for name in row.names.split() if row.names != kinds.ALL else ():
                with self.subTest(function=f"{row.module}.{name}"):
                    self.assertTrue(function_of(row.module, name) is not None or f"{row.module}.{name}" in LATER)

    def test_each_row_says_something_that_conflicts(self) -> None:
        rows = [*(row for row in kinds._METHODS if row.touched != kinds.KEY), *kinds._FUNCTIONS]
        words = {row.words for row in rows if row.words}
        self.assertEqual({word for word in words if not any(other in CONFLICTING[word] for other in words)}, set())

    def test_a_row_says_what_a_method_does_to_each_kind(self) -> None:
        self.assertEqual(kinds.WHOLE[kinds.DEQUE]["rotate"], "rewrite")
        self.assertEqual(kinds.WHOLE[kinds.DEQUE]["pop"], "addition")
        self.assertEqual(kinds.WHOLE[kinds.LIST]["pop"], "removal")
        self.assertEqual(kinds.WHOLE[kinds.DICT]["__iter__"], "keys")
        self.assertEqual(kinds.KEYED["pop"], {kinds.DICT: "d"})
        self.assertEqual(kinds.KEYED["remove"], {kinds.SET: "d"})

    def test_a_row_says_what_a_function_does(self) -> None:
        found = {
            name: kinds.known_function(name)
            for name in ("heapq.heappush", "json.loads", "csv.writer", "csv.reader", "os.getcwd")
        }
        self.assertEqual(found, {
            "heapq.heappush": "rewrite", "json.loads": "iteration", "csv.writer": None, "csv.reader": "iteration",
            "os.getcwd": None,
        })
        self.assertEqual(
            (kinds.depth_of("copy.deepcopy"), kinds.depth_of("json.dumps"), kinds.depth_of("json.loads")),
            ("state", "content", ""),
        )

    def test_each_type_is_of_its_kind(self) -> None:
        self.assertEqual([kind for number, row in kinds.TYPES.items() for kind in row if family_of(kind) != number], [])
        self.assertEqual([kind for kind, field in kinds.WITH_ONE_INSIDE if field_inside(kind) != field], [])

    def test_each_type_that_is_known_by_its_name_is_of_its_kind(self) -> None:
        types = {names: type_of(names) for names in kinds.TYPES_BY_NAME}
        self.assertEqual({names for names, kind in types.items() if kind is None}, set())
        self.assertEqual([names for names, kind in types.items() if family_of(kind) != kinds.TYPES_BY_NAME[names]], [])

    def test_each_class_with_settings_has_its_methods(self) -> None:
        lacking = {path: names - set(dir(pkgutil.resolve_name(path))) for path, names in settings.METHODS_OF_CLASSES.items()}
        later = sys.version_info >= (3, 12)
        self.assertEqual({path for path, names in lacking.items() if names and not later}, set())
        self.assertEqual([path for path, names in lacking.items() if names == settings.METHODS_OF_CLASSES[path]], [])

    def test_the_source_in_c_is_given_all_numbers(self) -> None:
        lines = header().splitlines()
        self.assertIn("#define MOST_BEGUN 10000", lines)
        self.assertEqual(len({line.split()[1] for line in lines}), len(lines))


if __name__ == "__main__":
    unittest.main()
