"""Has a handler of the program wait until no code of this package stands in between.

What it raises in the middle of a hook would be taken for a fault of the hook, and what it raises while garbage is
collected would be lost. A lock that was acquired within this package would stay acquired.
"""

from __future__ import annotations

import itertools
import os
import signal
import sys
import threading
import time
from _thread import get_ident
from types import FrameType
from typing import Any

from ..model.frames_of_threads import follows
from ..record import plain
from ..record.noting import without_own_frame
from ..record.own_threads import start_thread
from ..record.raised_within import is_of_library

_FOLDER = os.path.dirname(os.path.dirname(os.path.abspath(__file__)))
_PARTS = (("model", ""), ("record", ""), ("watch", ""), ("cli", "traced_process.py"))
WITHIN = (__file__, *(os.path.join(_FOLDER, *names) for names in _PARTS))
"""Where a handler waits for the end of this code, and of what it calls of the library."""
BETWEEN = (*WITHIN, *(os.path.join(_FOLDER, name, "") for name in ("marked", "sync")))
"""Where it waits for the end of this code: what that calls of the library, the program might call as well."""
WAITING = tuple(os.path.join(_FOLDER, *names) for names in (("marked", ""), ("sync", ""), ("record", "waiting.py")))
"""Where this code may wait for something, too."""
DELAY, LONGEST_DELAY = 0.001, 0.05
NO_TIME = 200_000
"""A thread that has computed for less than so many nanoseconds, and stands where it stood, waits there."""
MOST_TRIES, MOST_BESIDE_ANOTHER = 50, 1000
"""So often a signal is sent again, and so often if a trace function of the program keeps it from being looked for."""
FINALIZER = "__del__"
_send: Any = getattr(signal, "pthread_kill", None)
_handler_of = signal.getsignal
_trace_of, _set_trace = sys.gettrace, sys.settrace
_lock = plain.RLock()
"""Held while a signal is sent once more, so that no other handler is set meanwhile."""
LastSent = dict[int, int]
"""The serial number of the last signal that was sent again, by the number of the signal."""
NONE_SENT: LastSent = {}
MOST_SENT = 64
"""So many signals that were sent again may come as one."""
_serials = itertools.count(1)
_late: dict[int, Deferred] = {}
"""The handlers that may have to be called for what has come."""
_looked_at: list[FrameType] = []
"""The frame of the program in which the handlers are called as soon as it goes on."""


def _in_child() -> None:
    """The thread that held the lock is not in this process."""
    global _lock
    _lock = plain.RLock()


if hasattr(os, "register_at_fork"):
    os.register_at_fork(after_in_child=_in_child)


class Deferred:
    """Stands for a handler of a signal.

    What has come waits, and a thread sends the signal again and again until the handler was called: who is about to
    wait may miss one.
    """

    __slots__ = ("handler", "_waiting", "_process", "_stood", "_tries", "_sent", "_has_thread", "_is_looked_for")

    def __init__(self, handler: Any) -> None:
        self.handler = handler
        self._stood: tuple[FrameType, int, int] | None = None
        self._forget()

    def _forget(self) -> None:
        self._waiting: list[int] = []
        """The number of each signal that has come, and for which the handler was not called."""
        self._process, self._tries = os.getpid(), 0
        self._sent: dict[int, None] = {}
        """The serial numbers of signals that were sent again, and that have not come."""
        self._has_thread, self._is_looked_for = False, True
        """Whether it is called as soon as the program goes on, and not only by a signal that meets the program."""

    def __call__(self, number: int, frame: FrameType | None, last: LastSent = NONE_SENT) -> Any:
        """A signal has come, for the first time or as it was sent again.

        The last that was sent is a default value: the interpreter takes that as it heeds the signal, and lets no other
        thread go on meanwhile. What is sent behind that leads to a call of its own.
        """
        if self._process != os.getpid():  # The threads of a process that was forked are not in its child.
            self._forget()
        is_sent = self._sent.pop(last.get(number, 0), self) is None
        before, self._stood = self._stood, None
        if frame is not None and _is_between(frame) and not _waits(before, frame) and self._defer(number, is_sent):
            self._stood = _standing(frame)
            self._is_looked_for = _look_at(_of_program(frame))
            return None
        if is_sent and not self.takes_one():
            return None
        try:
            return self.handler(number, _of_program(frame) or frame)
        except BaseException as fault:
            without_own_frame(fault)
            raise

    def _defer(self, number: int, is_sent: bool) -> bool:
        if self._tries > (MOST_TRIES if self._is_looked_for else MOST_BESIDE_ANOTHER):
            return False
        with _lock:
            if not is_sent:
                self._waiting.append(number)
                _late[number] = self
            has_thread, self._has_thread = self._has_thread, True
        try:
            if not has_thread:
                start_thread(lambda: self._send_again(number))
        except RuntimeError:  # No thread can be started.
            self._has_thread = False
            return is_sent or not self.takes_one()
        return True

    def _send_again(self, number: int) -> None:
        """In a thread of its own: the signal comes once more, as the code that was interrupted may wait."""
        delay = DELAY
        while True:
            plain.sleep(delay)
            delay = min(2 * delay, LONGEST_DELAY) if self._is_looked_for else DELAY
            with _lock:
                main = threading.main_thread().ident
                if not self._waiting or main is None or _send is None or _handler_of(number) is not self:
                    self._has_thread = False
                    return
                self._tries += 1
                _send_to(main, number, self._sent)

    def takes_one(self) -> bool:
        """Whether there is one more for which the handler is to be called now."""
        self._stood, self._tries = None, 0
        with _lock:
            return self._process == os.getpid() and bool(self._waiting) and bool(self._waiting.pop())


def _send_to(thread: int, number: int, sent: dict[int, None]) -> None:
    """Sends a signal again, and adds its serial number to those that were sent."""
    call: Any = Deferred.__call__
    serial = next(_serials)
    sent[serial] = None
    for earlier in list(sent)[:-MOST_SENT]:
        sent.pop(earlier, None)
    call.__defaults__ = ({**call.__defaults__[0], number: serial},)
    _send(thread, number)


def _is_between(frame: FrameType) -> bool:
    if frame.f_code.co_filename.startswith(BETWEEN):
        return True
    above: FrameType | None = frame
    while above is not None and is_of_library(above.f_code.co_filename):
        above = above.f_back
    return above is not None and above.f_code.co_filename.startswith(WITHIN)


def _standing(frame: FrameType) -> tuple[FrameType, int, int] | None:
    """Where the code is that may wait for something, and how long this thread has computed."""
    may_wait = frame.f_code.co_filename.startswith(WAITING)
    return (frame, frame.f_lasti, time.thread_time_ns()) if may_wait else None


def _waits(before: tuple[FrameType, int, int] | None, frame: FrameType) -> bool:
    """Whether the code that was interrupted waits for something, so that nobody knows when it goes on."""
    now = _standing(frame)
    return before is not None and now is not None and before[:2] == now[:2] and now[2] - before[2] < NO_TIME


def _of_program(frame: FrameType | None) -> FrameType | None:
    """The frame of the program from which this package was called. None if the program has ended."""
    found = frame
    while found is not None and _is_between(found):
        found = found.f_back
    return found


def _look_at(frame: FrameType | None) -> bool:
    """Has the handlers called when this frame goes on, or the program calls another function.

    Gives whether that was possible: a trace function of the program stays.
    """
    if frame is None or _trace_of() is not None:
        return frame is None or _trace_of() is _is_called
    _looked_at[:] = [frame]
    follows(_is_called.__name__)
    frame.f_trace = _goes_on
    _set_trace(_is_called)
    return True


def _is_called(frame: FrameType, event: str, value: Any) -> None:
    """What is raised in a finalizer is lost, and the library has functions that are called as weak references go."""
    file = frame.f_code.co_filename
    if not file.startswith(_FOLDER) and not is_of_library(file) and frame.f_code.co_name != FINALIZER:
        try:
            _goes_on(frame, event, value)
        except BaseException as fault:
            without_own_frame(fault)
            raise


def _goes_on(frame: FrameType, _: str, __: Any) -> None:
    if _trace_of() is _is_called:  # Else the program has set a function of its own meanwhile.
        _set_trace(None)
    for one in _looked_at:
        if one.f_trace is _goes_on:
            one.f_trace = None
    _looked_at.clear()
    try:
        catch_up(frame)
    except BaseException as fault:
        without_own_frame(fault)
        raise


def catch_up(frame: FrameType | None) -> None:
    """The handlers are called for what has come: the program goes on, changes what signals do, or ends."""
    if not _late or get_ident() != threading.main_thread().ident:
        return
    try:
        for number, one in list(_late.items()):
            while one.takes_one():
                one.handler(number, frame)
            _late.pop(number, None)
    except BaseException as fault:
        without_own_frame(fault)
        raise


def deferred(handler: Any) -> Any:
    """What is set for a handler of the program. That of a loop does nothing, as the loop reads of signals from a file.
    """
    is_plain = _send is None or not callable(handler) or isinstance(handler, (Deferred, signal.Handlers))
    return handler if is_plain or str(getattr(handler, "__module__", "")).startswith("asyncio.") else Deferred(handler)


def shown(handler: Any) -> Any:
    """The handler as the program has set it."""
    return handler.handler if type(handler) is Deferred else handler
