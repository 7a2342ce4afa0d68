"""The hooks run no code of a program whose classes have odd metaclasses, and change none of what it writes."""

from __future__ import annotations

import unittest

from .support import ProgramCase, run_python, run_traced

FORMS = {"in Python": "1", "in C": ""}

METACLASSES = """
import collections, threading
calls = []
class Odd(type):
    def __hash__(cls):
        calls.append("hash")
        return 5
    def __eq__(cls, other):
        calls.append("eq")
        return cls is other
    def __instancecheck__(cls, one):
        calls.append("instancecheck")
        return True
    def __subclasscheck__(cls, one):
        calls.append("subclasscheck")
        return True
class OddTable(Odd, type(collections.UserDict)):
    pass
class Part(metaclass=Odd):
    def __init__(self):
        self.count, self.items = 0, []
class Table(collections.UserDict, metaclass=OddTable):
    pass
class Key(metaclass=Odd):
    pass
parts, table, keys, lock = [Part(), Part()], Table(), {}, threading.Lock()
key = Key()
def work():
    with lock:
        for part in parts:
            part.count += 1
            part.items.append(part.count)
            keys[key] = part
            keys.get(key), key in keys, len(keys), f"{part is parts[0]}", part == parts[1], [*part.items], getattr(part, "count")
            match part:
                case {"count": 1} | [1, 2]:
                    pass
            if part or keys:
                str(part.items), sorted(part.items), part.items[0]
        table["a"] = 1
        table["a"], len(table), "a" in table
"""
THREADS = """
threads = [threading.Thread(target=work) for _ in range(2)]
for thread in threads:
    thread.start()
for thread in threads:
    thread.join()
"""
FAULT = """
import threading
stock = {"left": [1]}
def work():
    stock["left"][3] += 1
"""


class OddTypes(ProgramCase):
    def assert_same(self, text: str) -> None:
        program = self.program(text)
        plain = run_python(program)
        for form, value in FORMS.items():
            with self.subTest(form=form):
                ran = run_traced("--quiet", program, ITC_TRACE_PURE=value)
                self.assertEqual((ran.stdout, ran.stderr), (plain.stdout, plain.stderr))

    def test_no_method_of_a_metaclass_is_called(self) -> None:
        self.assert_same(METACLASSES + THREADS + "print(calls)\n")

    def test_the_traceback_of_a_thread_has_no_frame_of_the_package(self) -> None:
        self.assert_same(FAULT + THREADS.replace("range(2)", "range(1)"))


if __name__ == "__main__":
    unittest.main()
