"""Runs a quick choice of the package's tests by each other Python that it is for, where one is found.

A Python is looked for on the PATH by its name, and among the versions of pyenv. What cannot be run is skipped and named.

Usage: python3 -m tests.other_pythons, in the folder of the package

The last line is `N passed, M failed`. The status is 0 where none failed.
"""

from __future__ import annotations

import os
import re
import shutil
import subprocess
import sys
import time
from collections.abc import Iterator
from pathlib import Path

PACKAGE = Path(__file__).resolve().parent.parent
VERSIONS = ((3, 11), (3, 12), (3, 13))
QUICK = (
    "test_rewriting.Rewriting.test_each_expression_is_visited_once", "test_later_forms", "test_threads", "test_locks", "test_thread_pools", "test_asyncio",
    "test_queues", "test_processes.Locks", "test_watch.WhatIsTouched", "test_helper.BothForms.test_they_note_the_same_inside_of_containers",
    "test_helper.BothForms.test_what_the_program_lets_go_of_leaves", "test_same_output",
    "test_seen.Seen.test_a_fork_warns_of_the_program_s_threads_alone", "test_tracebacks", "test_later_sessions",
)
"""Rewriting, hooks in both forms, threads, the loop of asyncio and processes. It takes about a minute of one processor."""
LONGEST = 1200.0
ASKED = "import sys; print(sys.version_info[0], sys.version_info[1], sys.version.split()[0])"
HAS_HOOKS_IN_C = "import itc_trace.watch.helper as helper; print(helper.quick is not None)"
RAN = re.compile(r"^Ran (\d+) tests? in .*\n\n(OK|FAILED)", re.MULTILINE)


def pythons() -> Iterator[tuple[tuple[int, int], str]]:
    """Each version that is not this one, with its program. The program is empty if there is none."""
    for version in VERSIONS:
        if version != sys.version_info[:2]:
            yield version, next((one for one in _programs(*version) if _version_of(one)[:2] == version), "")


def _programs(major: int, minor: int) -> Iterator[str]:
    found = shutil.which(f"python{major}.{minor}")
    if found is not None:
        yield found
    root = Path(os.environ.get("PYENV_ROOT") or Path.home() / ".pyenv")
    yield from (str(one) for one in sorted(root.glob(f"versions/{major}.{minor}.*/bin/python{major}.{minor}")))


def _version_of(program: str) -> tuple[int, int, str]:
    try:
        told = subprocess.run([program, "-c", ASKED], capture_output=True, text=True, timeout=LONGEST, check=False).stdout.split()
    except OSError:
        told = []
    return (int(told[0]), int(told[1]), told[2]) if len(told) == 3 else (0, 0, "")


def _run_one(program: str, name: str) -> tuple[int, int]:
    """Runs the tests of this name, in a process of their own. Gives how many passed, and how many failed at least."""
    words = [program, "-m", "unittest", f"tests.{name}"]
    try:
        ran = subprocess.run(words, stdout=subprocess.PIPE, stderr=subprocess.STDOUT, text=True, cwd=PACKAGE, timeout=LONGEST, check=False)
        said, status = ran.stdout, ran.returncode
    except subprocess.TimeoutExpired as fault:
        said, status = f"{fault}", 1
    found = RAN.search(said)
    count = int(found[1]) if found is not None else 0
    failed = 0 if status == 0 and count > 0 else max(1, said.count("\nFAIL: ") + said.count("\nERROR: "))
    if failed:
        print(said)
    return count - min(count, failed), failed


def run(program: str) -> tuple[int, int]:
    """Runs the tests by a Python. Gives how many passed, and how many failed at least."""
    began = time.monotonic()
    asked = subprocess.run([program, "-c", HAS_HOOKS_IN_C], capture_output=True, text=True, cwd=PACKAGE, timeout=LONGEST, check=False).stdout.strip()
    forms = "hooks in C" if asked == "True" else "hooks in Python alone"
    count = failed = 0
    for name in QUICK:
        passed_of_one, failed_of_one = _run_one(program, name)
        count, failed = count + passed_of_one, failed + failed_of_one
    print(f"Python {_version_of(program)[2]}, {forms}: {count} passed, {failed} failed, {time.monotonic() - began:.0f} s", flush=True)
    return count, failed


def main() -> int:
    passed = failed = 0
    for (major, minor), program in pythons():
        if not program:
            print(f"skipped: the tests by Python {major}.{minor}: there is none here", flush=True)
            continue
        ended = run(program)
        passed, failed = passed + ended[0], failed + ended[1]
    print(f"{passed} passed, {failed} failed")
    return 1 if failed else 0


if __name__ == "__main__":
    sys.exit(main())
