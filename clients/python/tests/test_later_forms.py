"""Forms of the language that came after Python 3.11, in watched programs: they do what they do unwatched, and their races are found."""

from __future__ import annotations

import ast
import sys
import unittest
from typing import Any

from itc_trace.watch.scopes import Scopes

from .support import ProgramCase, run_python, run_traced

LATER = """
import threading
from collections.abc import Callable

T = 1
T = 2
type Pair[A] = tuple[A, A]
type Table[**P, *Ts] = Callable[P, tuple[*Ts]]

class Box[T]:
    kinds = [kind for kind in (int, str) if kind is not None]

    def __init__(self, item: T) -> None:
        self.item, self.rows = item, [1]

    def put[U: (int, str)](self, item: U, *more: U) -> U:
        self.item = item
        self.rows += [one for one in more]
        return item

    def tell(self):
        return f"{f"{self.item!r:>{len(self.rows) + 4}}"}" + f"{', '.join([f'{one=}' for one in sorted({*self.rows})])}"

def first[T](rows: list[T]) -> T:
    return rows[0], T.__name__

def last(rows):
    found = [found for found in rows]
    late = [lambda: one for one in rows]
    return found[-1], late[0](), [one := 3 for two in rows], one

async def each(rows):
    try:
        return [row async for row in rows]
    except* ValueError:
        pass

box = Box[int](7)
print(first([5]), last([1, 2]), Box.kinds, Pair.__value__, Box.__type_params__, Table.__name__)

def work(number):
    box.put(number, number, number + 1)

for number in range(2):
    thread = threading.Thread(target=work, args=(number,))
    thread.start()
    threads = [*globals().get("threads", []), thread]
for thread in threads:
    thread.join()
print(sorted(box.rows), box.tell()[-40:])
"""


class LaterForms(ProgramCase):
    def test_a_program_does_what_it_does_unwatched_and_its_race_is_told(self) -> None:
        program = self.program(LATER)
        plain = run_python(program)
        self.assertEqual((plain.returncode, plain.stderr), (0, ""))
        for pure in ("", "1"):
            ran = run_traced(program, ITC_TRACE_PURE=pure)
            self.assertEqual((ran.returncode, ran.stdout), (66, plain.stdout), ran.stderr)
            self.assertIn("race on Box.item", ran.stderr)
            self.assertNotIn("runs as it is", ran.stderr)

    def test_a_parameter_for_types_is_no_variable_of_the_module(self) -> None:
        text = "T = 1\nT = 2\ndef first[T](rows):\n    return T\nclass Box[T]:\n    def kind(self):\n        return T\ndef second():\n    return T\n"
        tree = ast.parse(text)
        scopes = Scopes(tree)
        functions: dict[str, Any] = {node.name: node.scope for node in ast.walk(tree) if isinstance(node, ast.FunctionDef)}
        self.assertEqual({name: scopes.may_be_shared(scope, "T") for name, scope in functions.items()}, {"first": False, "kind": False, "second": True})


def load_tests(_loader: unittest.TestLoader, tests: unittest.TestSuite, _pattern: str | None) -> unittest.TestSuite:
    """Python 3.11 has none of these forms, so there is nothing to test by it."""
    return tests if sys.version_info >= (3, 12) else unittest.TestSuite()


if __name__ == "__main__":
    unittest.main()
