"""Runs the tests of the package, one process for each class of tests or each long test, and as many at a time as there are processors.

What fails beside others is run once more by itself, since some tests wait for what a loaded machine may do late. It has failed if it
fails again.

Usage: python3 -m tests.side_by_side, in the folder of the package

The last line is `N passed, M failed`. The status is 0 where none failed.
"""

from __future__ import annotations

import os
import re
import signal
import subprocess
import sys
import tempfile
import time
import unittest
from collections.abc import Iterator
from concurrent.futures import ThreadPoolExecutor, as_completed
from pathlib import Path
from typing import NamedTuple

PACKAGE = Path(__file__).resolve().parent.parent
AT_ONCE = max(2, len(os.sched_getaffinity(0)))
SPLIT = ("Programs", "Orders", "BothForms", "Library", "Pairs")
"""Classes with tests that take long. Each of these tests has a process of its own, and they come first."""
LONGEST = (
    "test_watch.Runs", "test_runs", "test_ends", "test_processes", "test_children", "test_errors.Errors", "test_long_runs", "test_system",
    "test_signals", "test_examples", "Reachability", "WrongRules", "test_speed", "test_http", "test_plugin", "test_seen", "test_descriptors",
)
"""The longest of the other classes, which come next: so none runs alone at the end."""
RAN = re.compile(r"^Ran (\d+) tests? in .*\n\nOK(?: \(skipped=(\d+).*\))?$", re.MULTILINE)
SAMPLE = re.compile(r"^(?:.* \.\.\. )?(sample: .*)$", re.MULTILINE)
"""What a test says of those that it has drawn."""
SKIPPED = re.compile(r" \.\.\. skipped ['\"](.*)['\"]$", re.MULTILINE)


class Ended(NamedTuple):
    """What became of a job."""

    job: str
    passed: int
    failed: int
    seconds: float
    used: float
    """Seconds of a processor, also of all processes that were started and waited for."""
    skipped: list[str]
    """Why tests were skipped."""
    said: str
    """All that it wrote."""

    def told(self, how: str) -> str:
        further = [f"skipped: {self.job}: {why}" for why in self.skipped] + SAMPLE.findall(self.said)
        return "\n".join([f"{self.job}: {self.passed} {how}, {self.seconds:.0f} s, {self.used:.0f} s of a processor", *further])


def jobs() -> list[str]:
    """The names of all classes of tests, and of the tests that take long, which come first."""
    suite = unittest.TestLoader().discover("tests", top_level_dir=str(PACKAGE))
    return sorted(dict.fromkeys(_job_of(test) for test in _tests(suite)), key=_place)


def _place(job: str) -> int:
    names = (*SPLIT, *LONGEST)
    return next((place for place, name in enumerate(names) if f".{name}." in f".{job}."), len(names))


def _tests(suite: unittest.TestSuite) -> Iterator[unittest.TestCase]:
    for one in suite:
        if isinstance(one, unittest.TestSuite):
            yield from _tests(one)
        else:
            yield one


def _job_of(test: unittest.TestCase) -> str:
    """A module that cannot be imported stands as a test by its own name, which fails."""
    kind = type(test)
    if kind.__module__ == "unittest.loader":
        return test.id().rpartition(".")[2]
    return test.id() if kind.__name__ in SPLIT else f"{kind.__module__}.{kind.__qualname__}"


def run(name: str) -> Ended:
    began = time.monotonic()
    words = [sys.executable, "-m", "unittest", "-v", name if name.startswith("tests.") else f"tests.{name}"]
    with tempfile.TemporaryFile("w+", encoding="utf-8", errors="replace") as output:
        process = subprocess.Popen(words, cwd=PACKAGE, stdout=output, stderr=subprocess.STDOUT)
        _, status, used = os.wait4(process.pid, 0)
        process.returncode = os.waitstatus_to_exitcode(status)
        output.seek(0)
        said = output.read()
    ended = Ended(name, 0, 0, time.monotonic() - began, used.ru_utime + used.ru_stime, list(dict.fromkeys(SKIPPED.findall(said))), said)
    told = RAN.search(said)
    if process.returncode or told is None or told[1] == "0":
        return ended._replace(failed=max(1, len(re.findall(r"^(?:FAIL|ERROR): ", said, re.MULTILINE))))
    return ended._replace(passed=int(told[1]) - int(told[2] or 0))


def heed_signals() -> None:
    """Has the tests heed what a shell ignores for what it starts in the background."""
    for number in (signal.SIGINT, signal.SIGQUIT, signal.SIGHUP, signal.SIGTERM):
        if signal.getsignal(number) == signal.SIG_IGN:
            signal.signal(number, signal.SIG_DFL)


def ran_beside_others(names: list[str]) -> Iterator[Ended]:
    with ThreadPoolExecutor(AT_ONCE) as pool:
        for job in as_completed([pool.submit(run, name) for name in names]):
            yield job.result()


def main() -> int:
    heed_signals()
    passed = failed = 0
    again = []
    for one in ran_beside_others(jobs()):
        passed += one.passed
        if one.failed:
            again.append(one.job)
        print(f"{one.job}: fails beside others\n{one.said}" if one.failed else one.told("passed"), flush=True)
    for one in map(run, again):
        passed, failed = passed + one.passed, failed + one.failed
        print(f"clients: wrong: {one.job}: {one.failed} failed\n{one.said}" if one.failed else one.told("passed alone"), flush=True)
    print(f"{passed} passed, {failed} failed")
    return 1 if failed or not passed else 0


if __name__ == "__main__":
    os.chdir(PACKAGE)
    sys.exit(main())
