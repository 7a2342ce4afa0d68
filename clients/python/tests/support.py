"""What the tests share: a collector, threads in a known order, and the races of a scenario."""

from __future__ import annotations

import _thread
import atexit
import contextlib
import os
import socket
import subprocess
import sys
import tempfile
import threading
import time
import unittest
from collections.abc import Callable, Iterator, Sequence
from pathlib import Path
from typing import Any, TypeVar

from itc_trace import Collector, Races, Tracing, tracing
from itc_trace.record.collector import HOST
from itc_trace.record.dividing import Border, Limits
from itc_trace.record.journal import Row, read_journal, read_line
from itc_trace.model.lines import Line
from itc_trace.analyse.parts import races_of_parts
from itc_trace.record.tracer_parts import Parts

Case = TypeVar("Case")
PACKAGE = Path(__file__).resolve().parent.parent
EXAMPLES = PACKAGE / "examples"
WAIT = 600
"""So many seconds a test waits for what surely comes, also on a machine that is busy with other work."""

PROGRAM_RUNS = int(os.environ.get("ITC_PROGRAM_RUNS", "1"))
"""How often each program of `programs` is run."""


def chosen(cases: Sequence[Case]) -> Sequence[Case]:
    """Every second case of a test whose cases take long. All of them, if programs are run several times."""
    return cases if PROGRAM_RUNS > 1 else cases[::2]


_TENANTS = [f"t{number}" for number in range(16)]
_free: list[tuple[int, str]] = []


def fresh_tenant() -> tuple[int, str]:
    """A port and a tenant to which nobody has reported."""
    if not _free:
        collector = Collector(*_TENANTS)
        atexit.register(collector.close)
        _free.extend((collector.port, tenant) for tenant in _TENANTS)
    return _free.pop()


@contextlib.contextmanager
def kept_port() -> Iterator[int]:
    """A port that nobody else is given meanwhile. A server that is told its number may listen there, and else nobody does."""
    with socket.socket() as kept:
        kept.setsockopt(socket.SOL_SOCKET, socket.SO_REUSEADDR, 1)
        kept.bind((HOST, 0))
        yield kept.getsockname()[1]


PART_EVENTS = int(os.environ.get("ITC_PART_EVENTS", "0"))
"""So many events after its beginning a part of a scenario's trace is left. With 0 the trace is one."""


class SmallParts(Parts):
    """Parts that are left soon, at one tenant after another."""

    def __init__(self) -> None:
        super().__init__(self._next_port, Limits(events=PART_EVENTS))
        self.tracer: Any = None

    def _next_port(self) -> int:
        port, self.tracer.connection.tenant = fresh_tenant()
        return port

    def divide(self, may_be_asked_for: Callable[[Line], bool]) -> Border:
        border = super().divide(may_be_asked_for)
        self._limits = Limits(events=self.divider.events + PART_EVENTS)
        return border


class Step:
    """Lets one thread wait for another without anything that is traced."""

    _allocate = (_thread.allocate_lock,)  # It is kept before any test has it traced.

    def __init__(self) -> None:
        self._lock = self._allocate[0]()
        self._lock.acquire()

    def done(self) -> None:
        self._lock.release()

    def wait(self) -> None:
        if not self._lock.acquire(True, WAIT):
            raise TimeoutError("a step was not done")


def wait_until(holds: Callable[[], object]) -> None:
    """Waits for what other threads do, without anything that is traced."""
    end = time.monotonic() + WAIT
    while not holds():
        if time.monotonic() > end:
            raise TimeoutError("what was waited for did not come")
        time.sleep(0.001)


def in_turn(*steps: Callable[[], object]) -> None:
    """Runs each in a thread of its own, one after another, and lets nothing that is traced tell so."""
    done = [Step() for _ in steps]

    def run(number: int) -> None:
        if number > 0:
            done[number - 1].wait()
        steps[number]()
        done[number].done()

    threads = [threading.Thread(target=run, args=(number,), name=f"step{number}") for number in range(len(steps))]
    for thread in threads:
        thread.start()
    for thread in threads:
        thread.join(WAIT)


class TracedCase(unittest.TestCase):
    """A test of what a scenario's trace says."""

    rows: list[Row]

    def races(self, scenario: Callable[[], Any]) -> Races:
        """The races of the scenario; `rows` has its journal afterwards."""
        port, tenant = fresh_tenant()
        if PART_EVENTS:
            return self._races_in_parts(scenario, port, tenant)
        with tempfile.NamedTemporaryFile("r", suffix=".journal") as journal:
            with tracing(port=port, tenant=tenant, journal=journal.name) as traced:
                scenario()
            found = traced.races()
            self.rows = list(read_journal(journal))
        events = {row.event for row in self.rows}
        self.assertEqual(events, set(range(1, len(events) + 1)), "an event is missing")
        return found

    def _races_in_parts(self, scenario: Callable[[], Any], port: int, tenant: str) -> Races:
        with tempfile.NamedTemporaryFile("r", suffix=".journal") as journal:
            parts = SmallParts()
            with Tracing(port, tenant, journal.name, parts=parts) as traced:
                parts.tracer = traced._tracer
                scenario()
            found = races_of_parts(journal.name)
            self.rows = [row for line in journal if isinstance(row := read_line(line), Row) and row.label != "goes on"]
        self.assertFalse(found.unseen, found.unseen)
        return found

    def assert_ordered(self, scenario: Callable[[], Any]) -> None:
        found = self.races(scenario)
        self.assertFalse(found.races, found.text())
        self.assertGreater(found.touches, 0)

    def assert_race(self, scenario: Callable[[], Any]) -> None:
        found = self.races(scenario)
        self.assertTrue(found.races, found.text())

    def assert_racing_things(self, things: str, scenario: Callable[[], Any]) -> None:
        """Exactly these things have races."""
        found = self.races(scenario)
        self.assertEqual(sorted({race.thing for race in found}), sorted(things.split()), found.text())


class ProgramCase(unittest.TestCase):
    """A test of programs that are run in processes of their own."""

    def program(self, text: str) -> str:
        folder = tempfile.TemporaryDirectory()
        self.addCleanup(folder.cleanup)
        path = Path(folder.name, "program.py")
        path.write_text(text)
        return str(path)


def python_with(*modules: str) -> str | None:
    """A Python that has these modules and that the package works with: the one that runs the tests, else the system's own."""
    for python in (sys.executable, "/usr/bin/python3"):
        asked = f"import {', '.join(('sys', *modules))}; sys.exit(sys.version_info < (3, 11))"
        if os.path.exists(python) and subprocess.run([python, "-c", asked], capture_output=True, check=False).returncode == 0:
            return python
    return None


def needs(package: str, *modules: str) -> Callable[[Any], Any]:
    """Skips a test that wants these modules, if no Python here has them. Debian has them in the package."""
    return unittest.skipIf(python_with(*modules) is None, f"there is no {modules[-1]} here: apt-get install -y {package}")


LISTS = ("run", "races", "system")
"""The commands that list races."""


def run_python(
    *words: str, python: str | None = sys.executable, cwd: str | None = None, **variables: str
) -> subprocess.CompletedProcess[str]:
    """Runs `python3 WORDS..` with the package at hand. A command that lists races lists each pair, and not one of each cause."""
    environment = {**os.environ, "PYTHONPATH": str(PACKAGE), **variables}
    if words[:2] == ("-m", "itc_trace") and words[2:3] and words[2] in LISTS:
        words = (*words[:3], "--all", *words[3:])
    command = [python or sys.executable, *words]
    return subprocess.run(command, capture_output=True, text=True, env=environment, cwd=cwd, timeout=600, check=False)


PATIENT = f"""
import sys
from itc_trace.cli import commands as __main__, system
system.GRACE_SECONDS = system.READY_SECONDS = {WAIT}.0
sys.exit(__main__.main())
"""
"""The words `-c PATIENT` do what `-m itc_trace` does, and wait for programs of a machine that is busy."""


def run_system(*words: str, cwd: str | None = None, **variables: str) -> subprocess.CompletedProcess[str]:
    """Runs `python3 -m itc_trace system WORDS..`, which waits for its processes as long as it takes."""
    return run_python("-c", PATIENT, "system", "--all", *words, cwd=cwd, **variables)


def run_traced(*words: str, python: str | None = sys.executable, **variables: str) -> subprocess.CompletedProcess[str]:
    """Runs `python3 -m itc_trace run WORDS..`."""
    return run_python("-m", "itc_trace", "run", *words, python=python, **variables)
