"""A loop that began while there was one task, and steps on beside the next one, is seen at these steps, or named."""

from __future__ import annotations

import unittest
from collections.abc import AsyncIterator
from pathlib import Path
from typing import Any

from itc_trace import Verdict
from itc_trace.watch.begun_loops import among, left_in_the_middle

from .forked_runs import run_program
from .support import ProgramCase, chosen

HEAD = """
import threading
jobs, table, rows = [1, 2, 3], {1: 1, 2: 2, 3: 3}, {1, 2, 3}
threads = []
def start(work, *words):
    threads.append(threading.Thread(target=work, args=words))
    threads[-1].start()
    return threads[-1]
def add(one):
    if one == 1:
        jobs.append(4)
        table[4] = 4
        rows.add(4)
def change(one):
    if one == 1:
        table[2] = 5
def drop(one):
    if one == 1:
        jobs.pop(), table.pop(3, None), rows.discard(3)
"""
TAIL = """
for thread in threads:
    thread.join()
"""
SAFE = "try:\n    BODY\nexcept RuntimeError:\n    pass\n"
"""Where the language itself may find out that a dictionary has changed."""
BEGUN = {
    "through a list": "for one in jobs:\n    start(add, one)\n",
    "through a list that gets shorter": "for one in jobs:\n    start(drop, one)\n",
    "through the keys of a dictionary": "for one in table:\n        start(add, one)",
    "through its values": "for one in table.values():\n        start(change, one)",
    "through its items": "for one, _ in table.items():\n        start(change, one)",
    "through a set": "for one in rows:\n        start(add, one)",
    "with numbers": "for _, one in enumerate(jobs):\n    start(add, one)\n",
    "through two at once": "for one, _ in zip(jobs, table):\n        start(drop, one)",
    "backwards": "for one in reversed(jobs):\n    start(drop, 1)\n",
    "that goes on before its end": "for one in jobs:\n    if one:\n        start(add, one)\n        continue\n    print()\n",
    "that goes on within a context": "for one in jobs:\n    with open(__file__), open(__file__):\n        start(add, one)\n        continue\n",
    "that goes on in a handler": (
        "for one in jobs:\n    try:\n        start(add, one), 1 / 0\n    except ZeroDivisionError as fault:\n        continue\n"
    ),
    "that goes on behind another one": (
        "for one in jobs:\n    for other in [1]:\n        continue\n    else:\n        start(add, one)\n        continue\n"
    ),
    "within another one": "for _ in range(1):\n    for one in jobs:\n        start(add, one)\n",
    "of a function": "def run():\n    for one in jobs:\n        start(add, one)\nrun()\n",
    "of a method": "class Crawl:\n    def run(self):\n        for one in jobs:\n            start(add, one)\nCrawl().run()\n",
    "of a generator": "def steps():\n    for one in jobs:\n        yield int(one)\nfor one in steps():\n    start(add, one)\n",
    "of a generator that waits": (
        "def steps():\n    for one in jobs:\n        yield int(one)\nwaiting = steps()\nnext(waiting)\nstart(add, 1)\nnext(waiting), next(waiting)\n"
    ),
    "of a list that is made": "[start(add, one) for one in jobs]\n",
    "of a set that is made": "{start(add, one) for one in jobs}\n",
    "of a dictionary that is made": "{one: start(add, one) for one in jobs}\n",
    "of a generator's expression": "list(start(add, one) for one in jobs)\n",
    "with a condition": "[start(add, one) for one in jobs if one]\n",
    "in a branch": "if jobs:\n    for one in jobs:\n        start(add, one)\n",
    "that calls by a property": (
        "class Crawl:\n    @property\n    def begun(self): return start(add, 1)\n"
        "crawl = Crawl()\nfor one in jobs:\n    crawl.begun\n    str(one)\n    if len(threads) > 3: break\n"
    ),
}
CLEAN = {
    "of what nobody changes": "for one in jobs:\n    start(str, one)\n",
    "of numbers": "for one in range(3):\n    start(str, 1)\n",
    "that is left": "for one in jobs:\n    start(add, one)\n    break\n",
    "that is left by a function": "def run():\n    for one in jobs:\n        return start(add, one)\nrun()\n",
    "of a copy": "for one in list(jobs):\n    start(add, one)\n",
    "of what is made there": "for one in [1, 2]:\n    start(str, one)\n",
    "that ends before": "for one in jobs:\n    str(one)\nstart(add, 1)\n",
    "that joins": "for one in jobs:\n    start(add, one).join()\n    if one > 3: break\n",
}
BY_OTHERS = {
    "map": "list(map(lambda one: start(add, one), jobs))\n",
    "a function by map": "def run(one): return start(add, one)\nlist(map(run, jobs))\n",
    "filter": "def run(one): return start(add, one)\nlist(filter(run, jobs))\n",
}


async def _wait() -> None:
    """Its coroutine is left in the middle before it begins."""


async def _steps() -> AsyncIterator[int]:
    yield 1


class LeftInTheMiddle(unittest.TestCase):
    def test_each_kind_of_what_may_wait_is_found_among_all_objects(self) -> None:
        waiting: list[Any] = [(one for one in "ab"), _wait(), _steps()]
        others = [iter("ab"), [], int, _wait, object(), None, 1]
        try:
            for find in (among, left_in_the_middle):
                self.assertEqual(find([*others, *waiting, *others]), waiting)
                self.assertEqual(find([]), [])
        finally:
            waiting[1].close()


class BegunLoops(ProgramCase):
    def assert_answers(self, programs: dict[str, str], status: int, words: str = "") -> None:
        cases = [(name, body, form) for form in ("", "1") for name, body in chosen(list(programs.items()))]
        for place, (name, body, form) in enumerate(cases):
            with self.subTest(name, hooks="Python" if form else "C"):
                safe = SAFE.replace("BODY", body) if body.endswith(")") else body
                ran = run_program(Path(self.program(HEAD + safe + TAIL)), place, ITC_TRACE_PURE=form)
                self.assertEqual(ran.returncode, status, body + ran.stderr)
                self.assertIn(words, ran.stderr)
                self.assertNotIn("Traceback", ran.stderr)

    def test_what_it_goes_through_is_looked_at_at_each_step(self) -> None:
        self.assert_answers(BEGUN, Verdict.RACES)

    def test_nothing_is_told_where_nothing_races(self) -> None:
        self.assert_answers(CLEAN, Verdict.NO_RACE)

    def test_one_that_something_in_c_goes_through_is_named(self) -> None:
        self.assert_answers(BY_OTHERS, Verdict.NO_RACE, "not looked into: a loop that began before the first thread at program.py:")


if __name__ == "__main__":
    unittest.main()
