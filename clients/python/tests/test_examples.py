"""Each example: with its bug a race is found in each run, and without it none.

ITC_RUNS says how often each is run, once where it is not set.
"""

from __future__ import annotations

import os
import subprocess
import unittest
from concurrent.futures import ThreadPoolExecutor

from .support import EXAMPLES, run_python, run_traced

RUNS = int(os.environ.get("ITC_RUNS", "1"))
THINGS = {
    "lost_update": {"stock"}, "cache": {"cache"}, "singleton": {"pool"}, "late_field": {"order 0", "order 1", "order 2"},
    "handler": {"account"}, "pool": {"squares"}, "barrier": {"part 0", "part 1", "part 2"},
}
RACE, CLEAN = 66, 0


def racing_things(text: str) -> set[str]:
    lines = (line for line in text.splitlines() if "race on " in line)
    return {line.partition("race on ")[2].partition(" (")[0] for line in lines}


def runs(*words: str, behind: tuple[str, ...] = ()) -> list[tuple[str, "subprocess.CompletedProcess[str]"]]:
    """Each run of each example, with words before and behind its name."""
    names = [name for name in THINGS for _ in range(RUNS)]
    with ThreadPoolExecutor(2) as pool:
        return list(zip(names, pool.map(lambda name: run_traced(*words, str(EXAMPLES / f"{name}.py"), *behind), names)))


class Examples(unittest.TestCase):
    def test_a_race_is_found_in_each_run(self) -> None:
        for name, ended in runs():
            with self.subTest(name=name):
                self.assertEqual((ended.returncode, racing_things(ended.stderr)), (RACE, THINGS[name]), ended.stderr)

    def test_the_repaired_program_is_clean_in_each_run_and_does_what_it_does_untraced(self) -> None:
        for name, ended in runs("--quiet", behind=("fixed",)):
            with self.subTest(name=name):
                plain = run_python(str(EXAMPLES / f"{name}.py"), "fixed")
                self.assertEqual((ended.returncode, ended.stdout, ended.stderr), (CLEAN, plain.stdout, ""))
                self.assertEqual(plain.returncode, CLEAN, plain.stderr)


class ThreeProcesses(unittest.TestCase):
    def test_the_race_between_processes_is_found_in_each_run(self) -> None:
        for _ in range(RUNS):
            ended = run_python(str(EXAMPLES / "three_processes.py"))
            self.assertEqual(ended.returncode, RACE, ended.stdout + ended.stderr)
            self.assertEqual(racing_things(ended.stderr), {"stock file"})

    def test_without_the_bug_they_are_clean_in_each_run(self) -> None:
        for _ in range(RUNS):
            ended = run_python(str(EXAMPLES / "three_processes.py"), "fixed")
            self.assertEqual(ended.returncode, CLEAN, ended.stdout + ended.stderr)
            self.assertIn("left: 7", ended.stdout)


if __name__ == "__main__":
    unittest.main()
