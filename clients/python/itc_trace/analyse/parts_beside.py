"""Has the parts of a run looked at by processes of their own, several at a time.

Each process gets the number of a part by its standard input, and gives what it has found there by its output. It ends
once its input does: so it does not outlive whoever has begun it. If it ends before, its parts are looked at here.
"""

from __future__ import annotations

import contextlib
import os
import pickle
import subprocess
import sys
from collections.abc import Generator
from pathlib import Path
from typing import IO, Any, NamedTuple

from ..record.collector import NoCollector
from ..session import Refused
from .divided_journal import DividedJournal
from .in_part import InPart, collected, find_in_part
from .progress import Bar

MOST_PROCESSES = 4
FEWEST_BYTES = 1 << 23
"""The parts of a shorter journal are looked at in turn: a process takes some time to begin."""
LONGEST_END = 10.0
"""In seconds. A process that looks at a part ends behind it, with its collector."""
PACKAGE = str(Path(__file__).resolve().parent.parent.parent)
PROGRAM = "import sys; sys.path.insert(0, sys.argv[1]); from itc_trace.analyse.parts_beside import serve; serve()"


class Asking(NamedTuple):
    """What a process looks at, and how."""

    divided: DividedJournal
    is_strict: bool
    signals: frozenset[str]


class NotLookedAt(Exception):
    """A process could not look at a part."""


def processes_for(journal_bytes: int) -> int:
    """By how many processes the parts of a journal of this size are looked at. 0 if that is done in turn."""
    processors = len(os.sched_getaffinity(0)) if hasattr(os, "sched_getaffinity") else os.cpu_count() or 1
    if journal_bytes < FEWEST_BYTES or processors < 2 or not sys.executable:
        return 0
    return min(processors, MOST_PROCESSES)


def found_beside(asking: Asking, processes: int, bar: Bar | None) -> Generator[InPart, None, None]:
    """What is in each part, in their order. NotLookedAt says why there is no more."""
    parts = range(1, asking.divided.count + 1)
    with contextlib.ExitStack() as stack:
        if bar is not None:
            stack.callback(bar.clear)
        workers = [stack.enter_context(_Worker(asking)) for _ in parts[:processes]]
        for part, worker in zip(parts, workers):
            worker.ask(part)
        for part in parts:
            worker = workers[(part - 1) % len(workers)]
            found = worker.answer() or _find(asking, part)
            if part + len(workers) in parts:
                worker.ask(part + len(workers))
            if bar is not None:
                bar.show(part, len(parts), "parts")
            yield found


class _Worker:
    """One of the processes. No key of the terminal reaches it."""

    def __init__(self, asking: Asking) -> None:
        self._process = subprocess.Popen(
            [sys.executable, "-I", "-c", PROGRAM, PACKAGE], stdin=subprocess.PIPE, stdout=subprocess.PIPE,
            start_new_session=True,
        )
        self._has_ended = False
        self._send(asking)

    def __enter__(self) -> _Worker:
        return self

    def __exit__(self, *_: object) -> None:
        for pipe in (self._process.stdin, self._process.stdout):
            if pipe is not None:
                with contextlib.suppress(OSError):
                    pipe.close()
        try:
            self._process.wait(LONGEST_END)
        except subprocess.TimeoutExpired:
            self._process.kill()
            self._process.wait()

    def ask(self, part: int) -> None:
        self._send(part)

    def _send(self, value: object) -> None:
        assert self._process.stdin is not None
        try:
            if not self._has_ended:
                _write(self._process.stdin, value)
        except OSError:
            self._has_ended = True

    def answer(self) -> InPart | None:
        """What is in the part that was asked for first. None if the process has ended, as out of memory."""
        assert self._process.stdout is not None
        try:
            found = None if self._has_ended else pickle.load(self._process.stdout)
        except (EOFError, pickle.UnpicklingError):
            found = None
        if found is None:
            self._has_ended = True
            return None
        if isinstance(found, str):
            raise NotLookedAt(found)
        assert isinstance(found, InPart)
        return found


def serve() -> None:
    """Answers what `_Worker` asks, until the input ends."""
    given, given_back = sys.stdin.buffer, open(sys.stdout.fileno(), "wb", buffering=0, closefd=False)
    with contextlib.suppress(EOFError, BrokenPipeError):
        asking: Asking = pickle.load(given)
        while True:
            _write(given_back, _found(asking, pickle.load(given)))


def _found(asking: Asking, number: int) -> InPart | str:
    try:
        return _find(asking, number)
    except (NoCollector, OSError, Refused) as fault:
        return str(fault)


def _find(asking: Asking, number: int) -> InPart:
    found = find_in_part(asking.divided.part(number), asking.is_strict, asking.signals, collected)
    return found.in_short(asking.divided.lasting)


def _write(stream: IO[bytes], value: Any) -> None:
    """Writes it at once, so that nothing is left to write once nobody reads any more."""
    left = memoryview(pickle.dumps(value, pickle.HIGHEST_PROTOCOL))
    while left:
        left = left[stream.write(left):]
    stream.flush()
