"""Runs tests of the standard library untraced and traced, and says which ones fail only because they are traced.

Usage: python3 library.py [MODULE..]
"""

import importlib.util
import json
import os
import subprocess
import sys
import tempfile
import time
import unittest
from collections.abc import Iterator
from dataclasses import dataclass, field
from pathlib import Path

PACKAGE = Path(__file__).resolve().parent
LONGEST = 600
INCOMPLETE = 67
FULL = "full"
"""A word in the reason why a run is incomplete, if the trace had no room."""

MODULES = [
    "test.test_queue", "test.test_threading", "test.test_threading_local", "test.test_sched", "test.test_thread",
    "test.test_asyncio.test_tasks", "test.test_asyncio.test_queues", "test.test_asyncio.test_locks",
    "test.test_asyncio.test_futures", "test.test_asyncio.test_taskgroups", "test.test_asyncio.test_timeouts",
    "test.test_asyncio.test_waitfor", "test.test_asyncio.test_runners", "test.test_concurrent_futures",
    "test.test_context", "test.test_functools", "test.test_heapq",
]

LEFT_OUT = {
    "test.test_thread.ThreadRunningTests.test_unraisable_exception":
        "it wants the thread's own function to be named by an error, and that is called by one of the package",
}
"""Tests that are not run traced, each with the reason."""


@dataclass
class Outcome:
    """How some tests ended."""

    failed: dict[str, str] = field(default_factory=dict)
    incomplete: list[str] = field(default_factory=list)
    seconds: float = 0.0


def main(modules: list[str]) -> int:
    wrong = 0
    for module in modules or MODULES:
        if not is_here(module):
            print(f"{module}: not among the tests of this Python", flush=True)
            continue
        for part in parts_of(module):
            wrong += tell(part)
    for test, reason in LEFT_OUT.items():
        print(f"left out: {test}: {reason}")
    return 1 if wrong else 0


def is_here(module: str) -> bool:
    try:
        return importlib.util.find_spec(module) is not None
    except ModuleNotFoundError:
        return False


def parts_of(module: str) -> list[str]:
    """The modules of a package of tests, or the module itself."""
    spec = importlib.util.find_spec(module)
    if spec is None or not spec.submodule_search_locations:
        return [module]
    folder = Path(next(iter(spec.submodule_search_locations)))
    return [f"{module}.{path.stem}" for path in sorted(folder.glob("test_*.py"))]


def tell(module: str) -> int:
    """How many tests of the module fail only traced, which it prints."""
    listed = run(["--list", module], is_traced=False)
    if listed.failed:
        print(f"{module}: cannot be loaded: {' '.join(listed.failed.values())[-300:]}", flush=True)
        return 0
    tests = [test for test in listed.incomplete if test not in LEFT_OUT]
    plain, traced = run(["--run", *tests], is_traced=False), run_whole(tests)
    wrong = {test: why for test, why in traced.failed.items() if test not in plain.failed}
    print(
        f"{module}: {len(tests)} tests, {len(plain.failed)} fail untraced, {len(wrong)} only traced; "
        f"{plain.seconds:.1f} s untraced, {traced.seconds:.1f} s traced", flush=True,
    )
    for test, why in wrong.items():
        print(f"    {test}\n        " + "\n        ".join(why.splitlines()[-12:]), flush=True)
    for reason in traced.incomplete:
        print(f"    not traced to the end: {reason}", flush=True)
    return len(wrong)


def run_whole(tests: list[str]) -> Outcome:
    """The same traced. Where the trace becomes full, each half is run by itself."""
    whole = run(["--run", *tests], is_traced=True)
    if not any(FULL in reason for reason in whole.incomplete) or len(tests) < 2:
        return whole
    middle = len(tests) // 2
    one, other = run_whole(tests[:middle]), run_whole(tests[middle:])
    return Outcome({**one.failed, **other.failed}, one.incomplete + other.incomplete, one.seconds + other.seconds)


def run(words: list[str], is_traced: bool) -> Outcome:
    with tempfile.NamedTemporaryFile("r", suffix=".json") as told:
        start = ["-m", "itc_trace", "run"] if is_traced else []
        environment = {**os.environ, "PYTHONPATH": str(PACKAGE)}
        begun = time.monotonic()
        try:
            ran = subprocess.run(
                [sys.executable, *start, __file__, told.name, *words], env=environment, capture_output=True, text=True,
                timeout=LONGEST, check=False,
            )
        except subprocess.TimeoutExpired:
            return Outcome({test: "it did not end" for test in words[1:]})
        text = told.read()
        if not text:
            return Outcome({test: ran.stderr for test in words[1:]})
        outcome = Outcome(**json.loads(text))
        outcome.seconds = time.monotonic() - begun
        if is_traced and ran.returncode == INCOMPLETE:
            outcome.incomplete = [line for line in ran.stderr.splitlines() if line.startswith("itc_trace: ")][:1]
        return outcome


# In the process that runs the tests


def run_here(told: str, words: list[str]) -> None:
    """Lists or runs tests, and writes their outcome to a file."""
    loaded = unittest.defaultTestLoader.loadTestsFromNames(words[1:])
    if words[0] == "--list":
        outcome = Outcome(incomplete=[test.id() for test in each(loaded)])
        outcome.failed = {test: test for test in outcome.incomplete if test.startswith("unittest.loader.")}
    else:
        result = unittest.TextTestRunner(sys.stderr, verbosity=0).run(loaded)
        outcome = Outcome({test.id(): why for test, why in [*result.failures, *result.errors]})
        outcome.failed.update({test.id(): "it was expected to fail" for test in result.unexpectedSuccesses})
    Path(told).write_text(json.dumps(vars(outcome)))


def each(suite: unittest.TestSuite) -> Iterator[unittest.TestCase]:
    for test in suite:
        if isinstance(test, unittest.TestSuite):
            yield from each(test)
        else:
            yield test


if __name__ == "__main__":
    if sys.argv[2:3] and sys.argv[2] in ("--list", "--run"):
        run_here(sys.argv[1], sys.argv[2:])
    else:
        sys.exit(main(sys.argv[1:]))
