"""Looks whether the program hangs, and tells what each of its tasks waits for, if somebody asks.

Whoever asks adds to a file: a signal, by a handler in C that runs also where no code of Python does, and the command
that runs the program.
"""

from __future__ import annotations

import atexit
import contextlib
import faulthandler
import json
import os
import signal
import sys
import threading
import time
from collections.abc import Callable, Iterator
from io import FileIO
from types import FrameType

from ..model.lines import state
from ..record import following, own_files, plain
from ..record.own_threads import start_thread
from ..model.handed_over import CHILDREN, TOLD
from .between import Own, cycle_between, find_holders, key_of_cycle, lines_of_cycle, row_of_cycle, three, told_by_all
from .waits import WAITS, Since, Wait, cycle_of, name_of, waits

LOOK = 0.1
"""In seconds, between two looks at the file and at the threads."""
STUCK = 1.0
"""So long all tasks wait before that is told."""
LOOKS = 10
"""So often it is looked at most, at the end of a trace, whether a cycle stays as it is."""
GONE_ON = (OSError, RuntimeError, KeyError, AttributeError, ValueError)
"""What a look raises if a task has gone on meanwhile, or the file is no more."""
ASKING = ("SIGQUIT", "SIGUSR1")
_ways_out: list[Callable[[], object]] = []
"""How this process is broken off once a deadlock is there, if it is to be. A forked child is so as well."""
_handled: list[FileIO] = []
"""The file that the handlers in C add to, held open for them. A forked child has those of its parent."""


class Hanging:
    """The thread that looks, from the program's beginning to its end."""

    _signals: tuple[str, ...] = ASKING

    def __init__(self, asked: str, write: Callable[[str], object], break_off: Callable[[], object] | None) -> None:
        self._asked = asked
        self._write = write
        self._break_off = break_off
        self._since = Since()
        self._process = os.getpid()
        self._kept: set[frozenset[tuple[str, str, str, float]]] = set()
        """The cycles that the journal has."""
        self._patience = STUCK if break_off is None else LOOK
        self._stuck: frozenset[tuple[int, float]] = frozenset()
        """The threads that were looked at closer last, and since when each had been where it was."""
        self._told: frozenset[tuple[str, str, str, float]] = frozenset()
        """Those of which it was told last that they are stuck."""
        self._begun = time.monotonic()
        self._size = 0
        """So long the file was as it was answered last."""
        self._own = Own()
        self._between: set[frozenset[tuple[str, str]]] = set()
        """The cycles between processes that were told."""

    def begin(self) -> None:
        if not _handled:
            self._handle()
        if self._break_off is not None:
            _ways_out.append(self._break_off)
        self._can_be_asked()
        start_thread(self._look_on)

    def _handle(self) -> None:
        """From here on these signals ask, unless the program handles them."""
        number_of_file = own_files.keep(os.open(self._asked, os.O_WRONLY | os.O_APPEND | os.O_CREAT, 0o600))
        _handled.append(open(number_of_file, "ab", buffering=0))
        for name in self._signals:
            number = getattr(signal, name, None)
            if number is not None and signal.getsignal(number) == signal.SIG_DFL:
                with contextlib.suppress(RuntimeError, OSError):
                    faulthandler.register(number, _handled[0], all_threads=False, chain=False)

    def _can_be_asked(self) -> None:
        self._note_answer()

    def _title(self) -> str:
        return "the program"

    def _within(self) -> str:
        return ""

    def _look_on(self) -> None:
        while os.getpid() == self._process:
            plain.sleep(LOOK)
            if state.tracer is None:
                continue
            try:
                begun = self._since.look()
                if self._is_asked():
                    self._answer()
                    plain.sleep(LOOK)
                    self._size = os.stat(self._asked).st_size
                if self._may_be_stuck(begun):
                    self._look_whether_stuck()
                if following.has_others():
                    self._look_between()
            except GONE_ON:
                continue

    def _is_asked(self) -> bool:
        return os.stat(self._asked).st_size != self._size

    def _may_be_stuck(self, begun: dict[int, float]) -> bool:
        """Whether it is worth to look closer: some threads, or the only one, have been where they are for long.

        Those are looked at once, as whoever looks at the variables of a frame holds them.
        """
        now = time.monotonic()
        stuck = frozenset((thread, since) for thread, since in begun.items() if now - since > self._patience)
        least = 1 if following.has_others() else min(2, len(begun))
        if len(stuck) < least or stuck == self._stuck:
            return False
        self._stuck = stuck
        return True

    def _answer(self) -> None:
        found = waits(self._since)
        find_holders(found, self._asked)
        _say(lines_of(found, f"{time.monotonic() - self._begun:.1f} s after its beginning {self._title()} has"))
        if following.has_others():
            self._look_between(again=True)
        self._note_answer()
        self._keep(cycle_of(found))

    def _note_answer(self) -> None:
        with open(self._asked + TOLD, "ab") as told:
            told.write(b".")

    def _look_whether_stuck(self) -> None:
        """Tells of tasks that wait for each other, or of which none can go on."""
        found = waits(self._since)
        self._own.look_at(found)
        cycle = cycle_of(found)
        is_closed = self._keep(cycle)
        are_stuck = _are_endless(found) and (is_closed or self._nobody_goes_on(found))
        if cycle and not is_closed:
            self._stuck = frozenset()  # A task of it has gone on as it was looked at.
        if not is_closed and not are_stuck or state.tracer is None:
            return
        told, self._told = self._told, frozenset(map(_key, found if are_stuck else cycle))
        if told == self._told:
            pass
        elif are_stuck:
            _say(lines_of(found, f"nobody{self._within()} goes on, as each waits for what only they could give:"))
        else:
            _say(lines_of(found, f"some{self._within()} wait for each other of"))
        if is_closed and self._break_off is not None:
            self._break_off()

    def _nobody_goes_on(self, found: list[Wait]) -> bool:
        """Whether all of them stay where they are, and nothing is noted meanwhile.

        Tasks that hand a lock to each other are seen as they wait for it, again and again.
        """
        tracer, places = state.tracer, self._since.look()
        reported = None if tracer is None else tracer.reported
        for _ in range(LOOKS if reported is not None else 0):
            plain.sleep(LOOK)
            if self._is_asked() or self._since.look() != places or tracer is None or tracer.reported != reported:
                reported = None
                break
        again = waits(self._since)
        if reported is not None and _are_endless(again) and set(map(_key, again)) == set(map(_key, found)):
            return True
        self._stuck = frozenset()  # They are looked at once more.
        return False

    def _look_between(self, again: bool = False) -> None:
        """Tells of tasks that wait for each other, of which some are those of child processes.

        `again` tells what was told before.
        """
        self._own.write(self._asked)
        cycle = cycle_between(told_by_all(self._asked))
        key = key_of_cycle(cycle)
        if cycle and (again or key not in self._between):
            _say(list(lines_of_cycle(cycle)))
        if cycle and key not in self._between:
            self._between.add(key)
            self._write(row_of_cycle(cycle))

    def _keep(self, cycle: list[Wait]) -> bool:
        """Writes a cycle to the journal, if it still is one. Gives whether it is."""
        if not cycle:
            return False
        plain.sleep(LOOK)
        again = cycle_of(waits(self._since))
        key = frozenset(map(_key, cycle))
        if frozenset(map(_key, again)) != key:
            return False
        if key not in self._kept:
            self._kept.add(key)
            self._write(deadlock_row(cycle))
        return True


class HangingChild(Hanging):
    """The same in a child process. Its answers are not those that the command waits for.

    Ctrl-\\ comes to all processes of a terminal. SIGUSR1 has the effect that whoever started the child knows.
    """

    _signals = ASKING[:1]

    def __init__(self, asked: str, write: Callable[[str], object]) -> None:
        super().__init__(asked, write, _ways_out[-1] if _ways_out else None)
        self._size = os.stat(asked).st_size  # What was asked before it began, it does not answer.

    def _can_be_asked(self) -> None:
        with open(self._asked + CHILDREN, "ab"):
            pass

    def _note_answer(self) -> None:
        """The command waits for the program's own process."""

    def _look_between(self, again: bool = False) -> None:
        """The program's own process is told."""
        self._own.write(self._asked)

    def _title(self) -> str:
        return f"process {self._name()}"

    def _within(self) -> str:
        return f" of process {self._name()}"

    @staticmethod
    def _name() -> str:
        tracer = state.tracer
        return str(os.getpid()) if tracer is None else name_of(tracer.main)


def lines_of(found: list[Wait], begin: str) -> list[str]:
    """What all of them wait for, in words for a person."""
    now = time.monotonic()
    count = len(found)
    lines = [f"{begin} {count} {'task' if count == 1 else 'tasks'}:"]
    lines += [f"    {line}" for one in found for line in one.told(now)]
    cycle = cycle_of(found)
    if cycle:
        names = [one.task for one in cycle]
        steps = [f"{one} waits for {other}" for one, other in zip(names, [*names[1:], names[0]])]
        lines.append(f"    a cycle: {', '.join(steps)}")
    return lines


@contextlib.contextmanager
def limited(seconds: float, end: Callable[[list[str]], object]) -> Iterator[None]:
    """Within the block this thread, the main one, calls `end` after so many seconds, with what all tasks wait for.

    The process does not wait at its end for the threads that were started in a block that was ended so.
    """
    since, is_ended = Since(), False
    others = set(threading.enumerate())

    def is_over(_: int, __: FrameType | None) -> None:
        nonlocal is_ended
        is_ended = True
        _LEFT.extend(one for one in threading.enumerate() if one not in others and not one.daemon)
        end(lines_of(waits(since), f"the test was ended after {seconds:g} s, with"))

    def look_on() -> None:
        while not is_ended:
            with contextlib.suppress(RuntimeError):  # It is asked meanwhile.
                since.look()
            plain.sleep(LOOK)

    before = signal.signal(signal.SIGALRM, is_over)
    signal.setitimer(signal.ITIMER_REAL, seconds)
    start_thread(look_on)
    try:
        yield
    finally:
        signal.setitimer(signal.ITIMER_REAL, 0)
        signal.signal(signal.SIGALRM, before)
        is_ended = True


_LEFT: list[threading.Thread] = []
"""The threads of tests that were ended."""


def leave_without_those_left(status: Callable[[], int]) -> None:
    """At its end the process does not wait for threads of tests that were ended, which may wait for ever."""
    def leave() -> None:
        if any(thread.is_alive() for thread in _LEFT):
            _say(["threads of tests that were ended are left behind"])
            vars(atexit)["_run_exitfuncs"]()
            sys.stdout.flush()
            sys.stderr.flush()
            os._exit(status())

    if _LEFT:
        vars(threading)["_register_atexit"](leave)  # It is called before all threads are waited for.


def _are_endless(found: list[Wait]) -> bool:
    """Whether each of them waits for what only a task of this process could give."""
    return bool(found) and all(one.is_endless for one in found) and not _handles_signals()


def _handles_signals() -> bool:
    """Whether the program has a handler for a signal. That may end any wait."""
    handlers = (signal.getsignal(number) for number in signal.valid_signals())
    return any(callable(one) and one is not signal.default_int_handler for one in handlers)


def tell_closed_cycle(write: Callable[[str], object]) -> None:
    """Writes to the journal a cycle that tasks of the trace have closed, if it is seen by two looks alike."""
    since, before = Since(), frozenset[tuple[str, str, str, float]]()
    for _ in range(LOOKS):
        try:
            cycle = _traced_cycle(since)
        except GONE_ON:
            continue
        key = frozenset(map(_key, cycle))
        if cycle and key == before:
            write(deadlock_row(cycle))
        if key == before:
            return
        before = key
        plain.sleep(LOOK)


def _traced_cycle(since: Since) -> list[Wait]:
    """One of the tasks that are traced now, and of none that an earlier trace has left."""
    return cycle_of([one for one in waits(since) if one.line is not None and one.line.tracer is state.tracer])


def _key(wait: Wait) -> tuple[str, str, str, float]:
    return wait.task, wait.what, wait.place, wait.since


def deadlock_row(cycle: list[Wait]) -> str:
    """The line of a journal that tells of tasks of which each waits for what the next one holds."""
    steps = []
    for one, before in zip(cycle, [cycle[-1], *cycle[:-1]]):
        held = before.lock
        steps.append({
            "task": one.task, "holds": f"the end of {one.task}" if held is None else held.name,
            "held_at": (None, 0, "") if held is None else three(held.taken_by, held.taken_at),
            "wants": one.what.removeprefix(WAITS) if one.lock is None else one.lock.name, "wanted_at": three(*one.at),
        })
    return json.dumps({"deadlock": steps}, separators=(",", ":")) + "\n"


def _say(lines: list[str]) -> None:
    """Writes to standard error in one piece, if there still is one."""
    if sys.__stderr__ is not None and lines:
        with contextlib.suppress(OSError, ValueError):
            sys.__stderr__.write("".join(f"{'' if line.startswith(' ') else 'itc_trace: '}{line}\n" for line in lines))
            sys.__stderr__.flush()
