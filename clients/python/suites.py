"""Runs concurrent parts of the test suites that Debian's packages ship: plain, traced, and watched, and compares outcome by outcome.

Usage: python3 clients/python/suites.py [--install] [PACKAGE..]

It runs them by /usr/bin/python3 and its pytest, a package after the other, or those that are named. With --install it installs each one
first. A row of the table tells of how many tests each outcome was the same. Below the table each other outcome is named. An outcome that
differs is asked for once more, alone, since some tests fail by chance. The status is 1 if an outcome stays another one.
"""

from __future__ import annotations

import argparse
import os
import subprocess
import sys
import tempfile
import time
from pathlib import Path
from typing import NamedTuple
from xml.etree import ElementTree

PACKAGE = Path(__file__).resolve().parent
PYTHON = "/usr/bin/python3"
INSTALLED = Path("/usr/lib/python3/dist-packages")
LONGEST = float(os.environ.get("ITC_SUITE_SECONDS", "900"))


class Suite(NamedTuple):
    """A package of Debian, the module that is watched, and its tests, as files of the installed package."""

    package: str
    module: str
    files: tuple[str, ...]
    chosen: str = ""
    """Which of their tests, in the words of pytest."""
    needs: str = ""
    """The package of Debian that the tests want beside their own."""


SUITES = (
    Suite("python3-twisted", "twisted", ("twisted/test/test_threadpool.py", "twisted/test/test_threads.py", "twisted/_threads/test")),
    Suite("python3-zmq", "zmq", ("zmq/tests/test_poll.py", "zmq/tests/test_device.py", "zmq/tests/test_monitor.py")),
    Suite("python3-joblib", "joblib", ("joblib/test/test_parallel.py",), "threading and not multiprocessing and not loky"),
    Suite("python3-tornado", "tornado", ("tornado/test/locks_test.py", "tornado/test/queues_test.py", "tornado/test/concurrent_test.py",
                                         "tornado/test/ioloop_test.py", "tornado/test/gen_test.py")),
    Suite("python3-cherrypy3", "cherrypy", ("cherrypy/test/test_bus.py",)),
    Suite("python3-cheroot", "cheroot", ("cheroot/test/test_dispatch.py", "cheroot/test/test_errors.py")),
    Suite("python3-psutil", "psutil", ("psutil/tests/test_process.py",), "thread or num or cpu"),
    Suite("python3-transaction", "transaction", ("transaction/tests",), needs="python3-mock"),
    Suite("python3-futurist", "futurist", ("futurist/tests",), needs="python3-testscenarios"),
    Suite("python3-oslo.concurrency", "oslo_concurrency", ("oslo_concurrency/tests/unit/test_lockutils.py",), needs="python3-oslotest"),
    Suite("python3-dask", "dask", ("dask/tests/test_threaded.py", "dask/tests/test_callbacks.py", "dask/tests/test_order.py")),
    Suite("python3-trio", "trio", ("trio/_core/tests/test_thread_cache.py", "trio/tests/test_sync.py")),
)
FORMS = {"plain": [], "traced": ["--watch-nothing"], "watched": ["--watch"]}
Outcomes = dict[str, str]


def outcomes(suite: Suite, form: str, *more: str) -> tuple[Outcomes, float, str]:
    """What became of each test, how long all took, and what was said at the end."""
    options = [*FORMS[form], *([suite.module] if form == "watched" else [])]
    before = ["-m", "itc_trace", "run", *options, "-m", "pytest"] if options else ["-m", "pytest"]
    with tempfile.TemporaryDirectory() as folder:
        told = Path(folder, "told.xml")
        words = ["-q", "-p", "no:cacheprovider", "-p", "no:randomly", f"--rootdir={folder}", f"--junitxml={told}"]
        chosen = ["-k", suite.chosen] if suite.chosen else []
        environment = {**os.environ, "PYTHONPATH": str(PACKAGE)}
        began = time.monotonic()
        try:
            ran = subprocess.run(
                [PYTHON, *before, *words, *(more or [*(str(INSTALLED / one) for one in suite.files), *chosen])],
                cwd=folder, env=environment, capture_output=True, text=True, timeout=LONGEST, check=False,
            )
            said = (ran.stderr or ran.stdout).strip().splitlines()[-1:]
        except subprocess.TimeoutExpired:
            said = [f"did not end within {LONGEST} seconds"]
        return (_read(told) if told.exists() else {}), time.monotonic() - began, "".join(said)


def _read(told: Path) -> Outcomes:
    found: Outcomes = {}
    for case in ElementTree.parse(told).iter("testcase"):
        kinds = {one.tag for one in case} & {"failure", "error", "skipped"}
        found[f"{case.get('classname')}::{case.get('name')}"] = "".join(sorted(kinds)) or "passed"
    return found


def different(plain: Outcomes, other: Outcomes) -> list[str]:
    return [name for name in plain | other if plain.get(name) != other.get(name)]


def compare(suite: Suite) -> list[str]:
    """Prints the row of a package. Gives the outcomes that stay others."""
    plain, seconds, _ = outcomes(suite, "plain")
    cells, named = [], []
    for form in ("traced", "watched"):
        other, took, said = outcomes(suite, form)
        names = different(plain, other)
        if names:  # By chance, it may be: each form is run once more.
            again, more = outcomes(suite, "plain")[0], outcomes(suite, form)[0]
            names = [name for name in names if name in different(again, more) or not more]
        cells.append(f"{len(plain) - len(names)} same, {took:.0f} s")
        named += [f"{suite.package}: {name} {form}: {other.get(name, 'not run')}, plain: {plain.get(name, 'not run')}: {said}" for name in names]
    passed = sum(one == "passed" for one in plain.values())
    print(f"| `{suite.package}` | {len(plain)} | {passed} | {seconds:.0f} s | {' | '.join(cells)} |", flush=True)
    return named if passed else [f"{suite.package}: no test of it passes plain"]


def main() -> int:
    parser = argparse.ArgumentParser(description=__doc__, formatter_class=argparse.RawDescriptionHelpFormatter)
    parser.add_argument("--install", action="store_true", help="installs each package first")
    parser.add_argument("packages", nargs="*", metavar="PACKAGE")
    asked = parser.parse_args()
    unknown = set(asked.packages) - {suite.package for suite in SUITES}
    if unknown:
        parser.error(f"no suite of {', '.join(sorted(unknown))} is known")
    chosen = [suite for suite in SUITES if not asked.packages or suite.package in asked.packages]
    if asked.install:
        names = ["python3-pytest", *(suite.package for suite in chosen), *(suite.needs for suite in chosen if suite.needs)]
        subprocess.run(["apt-get", "install", "-y", "--no-install-recommends", *names], check=True, stdout=subprocess.DEVNULL)
    print("| Package | Tests | Passed plain | Plain | Traced | Watched |\n|---|---:|---:|---|---|---|", flush=True)
    named = [line for suite in chosen for line in compare(suite)]
    print("\n".join(named))
    return 1 if named else 0


if __name__ == "__main__":
    sys.exit(main())
