"""Locks of real packages that are acquired in two orders, by the package itself and by what a program hands it."""

from __future__ import annotations

import os
import re
import unittest
from pathlib import Path

from itc_trace import Verdict

from .support import PROGRAM_RUNS, ProgramCase, needs, python_with, run_traced

TURNS = """
import threading, time
own_lock = threading.RLock()
def run(forth, back):
    threads = [threading.Thread(target=forth), threading.Thread(target=lambda: (time.sleep(0.3), back()))]
    for thread in threads:
        thread.start()
    for thread in threads:
        thread.join()
"""

POOLS = TURNS + """
from urllib3 import HTTPConnectionPool, PoolManager
class Pool(HTTPConnectionPool):
    def __init__(self, *words, **named):
        with own_lock:  # told
            super().__init__(*words, **named)
manager = PoolManager()
manager.pool_classes_by_scheme = {"http": Pool}
def ask():
    manager.connection_from_host("127.0.0.1", 80)
def keep():
    with own_lock:  # told
        manager.clear()
run(ask, keep)
"""
"""The manager makes a pool under the lock of its pools, and whoever has the program's own lock clears them."""

DISPOSED = TURNS + """
from urllib3._collections import RecentlyUsedContainer
class Eager(RecentlyUsedContainer):
    def __setitem__(self, key, value):
        with self.lock:  # told
            super().__setitem__(key, value)
def dispose(value):
    with own_lock:  # told
        value.clear()
recent = Eager(1, dispose)
def use():
    recent[1] = [1]
    recent[2] = [2]
def look():
    with own_lock:  # told
        len(recent)
run(use, look)
"""
"""What is thrown away is disposed of under the container's lock, as it was before the package took care of that."""

ROUTES = TURNS + """
from werkzeug.routing import Map, Rule
class Owned(Rule):
    def build_compare_key(self):
        with own_lock:  # told
            return super().build_compare_key()
routes = Map([Owned("/one", endpoint="one")])
def match():
    routes.bind("shop").match("/one")
def extend():
    with own_lock:  # told
        routes.add(Rule("/two", endpoint="two"))
        routes.update()
run(match, extend)
"""
"""The map sorts its rules under a lock, and a rule asks for the program's own one."""

PARSED = TURNS + """
import pyparsing
pyparsing.ParserElement.enable_packrat()
def count(words):
    with own_lock:  # told
        return len(words)
word = pyparsing.OneOrMore(pyparsing.Word(pyparsing.alphas)).add_parse_action(count)
def parse():
    word.parse_string("some words")
def keep():
    with own_lock:  # told
        pyparsing.Word(pyparsing.nums).parse_string("12")
run(parse, keep)
"""
"""An action runs under the lock of the parser's cache, and whoever has the program's own lock parses."""


class Packages(ProgramCase):
    def told(self, text: str, *modules: str) -> None:
        for _ in range(PROGRAM_RUNS):
            program = self.program(text)
            ran = run_traced("--timeout", "60", "--fail-on", "possible", program, python=python_with(*modules))
            self.assertEqual(ran.returncode, Verdict.RACES, ran.stderr)
            listed = ran.stderr[ran.stderr.index("itc_trace: possible deadlock on "):]
            due = [number for number, line in enumerate(text.splitlines(), 1) if line.endswith("# told")]
            name = re.escape(os.path.basename(Path(program)))
            self.assertEqual(sorted({int(line) for line in re.findall(rf"{name}:(\d+) in .*# told", listed)}), due, listed)
            steps = re.findall(r"^    \S+ +(?:holds|wants) .* at \S+:\d+ in \w+", listed, re.M)
            self.assertEqual(len(steps), 4 * listed.count("possible deadlock on "), listed)

    @needs("python3-urllib3", "urllib3")
    def test_a_pool_that_is_made_under_the_lock_of_all_pools(self) -> None:
        self.told(POOLS, "urllib3")

    @needs("python3-urllib3", "urllib3")
    def test_what_is_disposed_of_under_the_lock_of_a_container(self) -> None:
        self.told(DISPOSED, "urllib3")

    @needs("python3-werkzeug", "werkzeug")
    def test_rules_that_are_sorted_under_the_lock_of_their_map(self) -> None:
        self.told(ROUTES, "werkzeug")

    @needs("python3-pyparsing", "pyparsing")
    def test_an_action_that_runs_under_the_lock_of_a_parser(self) -> None:
        self.told(PARSED, "pyparsing")


if __name__ == "__main__":
    unittest.main()
