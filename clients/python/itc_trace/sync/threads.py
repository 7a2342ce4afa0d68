"""Traces `threading`: what its threads, locks, events, barriers and semaphores put in order."""

from __future__ import annotations

import _thread
import sys
import threading
from collections import deque
from types import FrameType, FunctionType
from typing import Any

from .handed_on import called, handed_at
from ..model.lines import BARRIER, EVENT, FINISH, JOIN, NOTIFY, SEMAPHORE, SPAWN, CountedPermits, Line, state
from ..model.answers import NO, NOTHING, YES
from ..record.noting import (
    are_in_place, are_replaced, enter, joining, local, mark, mark_permits, starting, take, take_asked, take_permit,
    thread_name,
)
from ..model.frames import frame_at, is_internal, line_of, place
from ..model.lock_identity import Asking, Poll
from .base import Patches, like
from .left_behind import ended, started
from ..record.awaited import await_at_exit
from .locks import (
    IS_CALLED, QUIET, OnePermit, TracedLock, TracedRLock, allocate_lock, gave, is_of_condition, took,
)
from .polls import poll_at
from .python_rlocks import known_lock, new_rlock, rlock_of_condition
from .waiters import Waiters

_PLAIN_LOCK: Any = _thread.LockType
_PLAIN_RLOCK: Any = vars(_thread)["RLock"]

MOST_PERMITS = 65536
"""A semaphore that begins with more of them holds nobody back, and is not traced."""


def put(patches: Patches) -> None:
    """Tasks that another library has put in the place of threads already are not followed."""
    if are_in_place():
        return
    for name in ("allocate_lock", "allocate"):
        patches.replace(_thread, name, like(vars(_thread)[name], _copy_of(allocate_lock)))
    patches.replace(threading, "Lock", TracedLock if IS_CALLED else _thread.allocate_lock)
    patches.replace(threading, "RLock", like(threading.RLock, new_rlock))
    patches.replace(threading, "_CRLock", TracedRLock)
    patches.replace(_thread, "RLock", TracedRLock)
    for name in ("LockType", "lock"):
        if name in vars(_thread):
            patches.replace(_thread, name, TracedLock)
    _put_threads(patches)
    _put_conditions(patches)
    _put_events(patches)
    _put_semaphores(patches)
    _put_barriers(patches)


def _copy_of(function: Any) -> Any:
    return FunctionType(function.__code__, function.__globals__, function.__name__)


# Threads


def _put_threads(patches: Patches) -> None:
    thread = threading.Thread
    patches.wrap(thread, "__init__", _begin_thread)
    patches.wrap(threading.Timer, "__init__", _begin_timer)
    patches.wrap(threading.Timer, "run", _run_timer)
    patches.wrap(thread, "start", _start)
    patches.wrap(thread, "_bootstrap", _bootstrap)
    patches.wrap(thread, "join", _join)
    patches.wrap(thread, "is_alive", _is_alive)
    for name in ("start_new_thread", "start_new"):
        original = getattr(_thread, name)
        patches.replace(_thread, name, like(original, _start_plain(original)))


def _begin_thread(original: Any) -> Any:
    def __init__(self: Any, *words: Any, **named: Any) -> None:
        original(self, *words, **named)
        target = words[1] if len(words) > 1 else named.get("target")
        handed = handed_at(target)
        if handed is not None:
            self.__dict__["_itc_handed"] = handed

    return __init__


def _tell_of_target(thread: Any) -> None:
    """Tells of a target that is a method of a container,
    unless a `run` of the program stands before it and calls no other one."""
    handed = thread.__dict__.get("_itc_handed")
    run = type(thread).run
    calls_target = run is threading.Thread.run or "run" in run.__code__.co_names
    if handed is not None and calls_target:
        called(thread._target, tuple(thread._args), handed)


def _begin_timer(original: Any) -> Any:
    def __init__(self: Any, interval: Any, function: Any, *words: Any, **named: Any) -> None:
        original(self, interval, function, *words, **named)
        self.__dict__["_itc_handed"] = handed_at(function)
        # Another library may have put an event of its own in its place.
        if type(self.finished) is threading.Event and hasattr(self.finished, "_itc_is_silent"):
            _be_of_the_program(self.finished)
        elif hasattr(self.finished, "_itc_is_quiet"):
            self.finished._itc_is_quiet = False

    return __init__


def _run_timer(original: Any) -> Any:
    def run(self: Any) -> Any:
        handed = self.__dict__.get("_itc_handed")
        if handed is None:
            return original(self)
        self.finished.wait(self.interval)
        if not self.finished.is_set():
            called(self.function, tuple(self.args), handed)
            self.function(*self.args, **self.kwargs)
        self.finished.set()
        return None

    return run


def _start(original: Any) -> Any:
    def start(self: threading.Thread) -> Any:
        note = state.note
        if note is None or not isinstance(self, threading.Thread) or self.ident is not None or are_replaced():
            return original(self)
        line = Line(state.tracer, thread_name(self))
        line.must_finish = True
        line.watch(self)
        if not self.daemon:
            await_at_exit(line)
        self.__dict__["_itc_line"] = line  # The program's own class may refuse attributes.
        started(self, frame_at(1))
        note((SPAWN, starting(line), line, *place(frame_at(1))))
        return original(self)

    return start


def _bootstrap(original: Any) -> Any:
    def bootstrap(self: threading.Thread) -> Any:
        line = self.__dict__.get("_itc_line")
        if line is not None:
            enter(line)
            if not isinstance(self, threading.Timer):
                _tell_of_target(self)
        try:
            return original(self)
        finally:
            line = self.__dict__.get("_itc_line")  # It has another one if tracing has begun meanwhile.
            if line is not None:
                self.__dict__.pop("_itc_is_adopted", None)
                _note_end(line)

    return bootstrap


def _note_end(line: Line) -> None:
    line.section = None
    note = state.note
    if note is not None and line.tracer is state.tracer:
        ended(line)
        note((FINISH, line, True))


def _join(original: Any) -> Any:
    def join(self: threading.Thread, timeout: float | None = None) -> None:
        line = self.__dict__.get("_itc_line")
        if line is None or state.note is None:
            original(self, timeout)
        else:
            line.waiting += 1
            try:
                original(self, timeout)
            finally:
                line.waiting -= 1
        line = self.__dict__.get("_itc_line")  # It has another one if tracing has begun meanwhile.
        if line is None or self is threading.main_thread():
            take(self.__dict__.get("_itc_end"))  # That is the main thread's.
        elif state.note is not None and _has_seen_end(self):
            _note_join(self, line, timeout is not None and poll_at(frame_at(1), "join", NOTHING) or False)
        return None

    return join


def _has_seen_end(thread: Any) -> bool:
    """Whether `join` has seen the thread's end.

    If it has waited for too short a time, the thread may end right behind it.
    """
    is_stopped: bool | None = thread.__dict__.get("_is_stopped")
    if is_stopped is not None:
        return is_stopped
    is_alive: Any = threading.Thread.is_alive
    return not is_alive.__wrapped__(thread)


def _is_alive(original: Any) -> Any:
    def is_alive(self: threading.Thread) -> bool:
        alive = bool(original(self))
        line = self.__dict__.get("_itc_line")
        if not alive and line is not None and not is_internal(frame_at(1)):
            _note_join(self, line, _poll_of(frame_at(1)))
        return alive

    return is_alive


_polls: dict[str, Asking] = {}
"""Of each place of the library that asks whether threads are over."""


def _poll_of(frame: FrameType | None) -> Asking | Poll | bool:
    """What a poll is known by that the library makes for itself. `socketserver` forgets threads that are over.

    One of the program is no more than a poll, or is meant if it does nothing more but behind a yes.
    """
    module = "" if frame is None else str(frame.f_globals.get("__name__", "")).partition(".")[0]
    if frame is None or module not in sys.stdlib_module_names:
        return poll_at(frame, "is_alive", NO) or True
    code, instruction = place(frame)
    where = f"{module}.py:{line_of(code, instruction)}" if code is not None else module
    return _polls.setdefault(where, Asking.poll(where))


def _note_join(thread: threading.Thread, line: Line, poll: Asking | Poll | bool = False) -> None:
    note = state.note
    if note is None or line.tracer is not state.tracer:
        return
    if thread.__dict__.pop("_itc_is_adopted", False):
        note((FINISH, line, True))  # It began before tracing did, so nobody noted its end.
    note((JOIN, joining(line), line, *place(frame_at(2)), poll))


def _start_plain(original: Any) -> Any:
    def start_new_thread(function: Any, args: Any, kwargs: Any = None, /) -> Any:
        note = state.note
        words = (args,) if kwargs is None else (args, kwargs)
        frame = frame_at(1)
        if note is None or is_internal(frame) or not callable(function):
            return original(function, *words)
        line = Line(state.tracer, getattr(function, "__name__", "thread") + "#")
        line.must_finish = line.is_gone = True  # Nobody can wait for it.
        place_of_function = handed_at(function)

        def run(*args: Any, **kwargs: Any) -> None:
            enter(line)
            try:
                called(function, args, place_of_function)
                function(*args, **kwargs)
            finally:
                _note_end(line)

        note((SPAWN, starting(line), line, *place(frame)))
        return original(like(function, run), *words)

    return start_new_thread


# Conditions: whoever wakes up comes after who notified it, whatever becomes of the lock meanwhile.


def _put_conditions(patches: Patches) -> None:
    patches.wrap(threading.Condition, "__init__", _condition_begin)
    patches.wrap(threading.Condition, "notify", _condition_notify)
    patches.wrap(threading.Condition, "wait", _condition_wait)


def _condition_begin(original: Any) -> Any:
    def __init__(self: Any, lock: Any = None) -> None:
        frame = frame_at(1)
        is_the_programs = not is_internal(frame)
        if lock is None:
            lock = _lock_of_condition(frame) if is_the_programs or are_in_place() else _PLAIN_RLOCK()
        original(self, lock)
        if is_the_programs and not are_replaced():
            self._waiters = Waiters()
            is_of_condition(known_lock(lock), frame)

    return __init__


def _lock_of_condition(frame: FrameType | None) -> Any:
    """One of the program, or of the library as another one has it made."""
    return threading.RLock() if are_replaced() else rlock_of_condition(frame)


def _may_be_waited_for(lock: Any, frame: FrameType | None) -> None:
    """Somebody waits at a condition of the lock, or notifies. For that of a queue, the program itself has to do so."""
    while type(lock) in QUIET and frame is not None and frame.f_globals.get("__name__") == "threading":
        frame = frame.f_back  # `notify_all` and `wait_for` stand there.
    if type(lock) not in QUIET or not is_internal(frame):
        is_of_condition(known_lock(lock))


def _condition_notify(original: Any) -> Any:
    def notify(self: Any, n: int = 1) -> None:
        lock, waiters = self._lock, self._waiters
        if not waiters and type(lock) in QUIET and type(self) is threading.Condition and lock.locked():
            return  # Nobody waits, and the lock is the library's own: there is nothing to do and nothing to tell.
        _may_be_waited_for(lock, frame_at(1))
        if waiters and type(waiters) is Waiters and self._is_owned():
            waiters.are_notified(mark(NOTIFY), n)
        original(self, n)

    return notify


def _condition_wait(original: Any) -> Any:
    def wait(self: Any, timeout: float | None = None) -> bool:
        _may_be_waited_for(self._lock, frame_at(1))
        is_woken = False
        try:
            is_woken = bool(original(self, timeout))
        finally:
            token = self._waiters.woken() if type(self._waiters) is Waiters else None
            if is_woken:  # Else nobody has told it of a call that came when its time was over.
                take(token)
        return is_woken

    return wait


# Events


def _put_events(patches: Patches) -> None:
    event = threading.Event
    patches.put(event, "_itc_is_silent", False)
    patches.put(event, "_itc_token", None)
    patches.wrap(event, "__init__", _event_begin)
    patches.wrap(event, "set", _event_set)
    patches.wrap(event, "wait", _event_wait)
    patches.wrap(event, "is_set", _event_is_set)
    if "isSet" in vars(event):
        patches.wrap(event, "isSet", _event_is_set)


class _EventWaiters(Waiters):
    """Those who wait for an event of the program. The call that sets it tells them by itself of its place."""


def _event_begin(original: Any) -> Any:
    def __init__(self: Any) -> None:
        original(self)
        self._itc_is_silent = is_internal(frame_at(1))
        if not self._itc_is_silent:
            self._cond._waiters = _EventWaiters()

    return __init__


def _be_of_the_program(event: Any) -> None:
    """An event that the library has made for the program: nobody has it yet."""
    event._itc_is_silent = False
    event._cond._waiters = _EventWaiters()


def _is_noted(event: Any) -> bool:
    """Whether it is an event of the program. One that was made before this package was there gets what it needs."""
    if state.note is None or event._itc_is_silent:
        return False
    if type(event._cond._waiters) is not _EventWaiters:
        with event._cond:
            event._cond._waiters = _EventWaiters.of(event._cond._waiters)
    return True


def _event_set(original: Any) -> Any:
    """Nobody sees the event set before its place is known, and none who finds it set has a place."""

    def set(self: Any) -> None:
        if not _is_noted(self):
            original(self)
            return
        token = None if self._flag else mark(EVENT)
        with self._cond:
            if not self._flag:
                self._itc_token = token or mark(EVENT)
                self._flag = True
            self._cond._waiters.are_notified(self._itc_token, len(self._cond._waiters))
            self._cond.notify_all()

    return set


def _event_wait(original: Any) -> Any:
    """Whoever has waited comes after the call that woke it, also if another one has set the event anew meanwhile."""

    def wait(self: Any, timeout: float | None = None) -> bool:
        if not _is_noted(self):
            is_on = bool(original(self, timeout))
            take(self._itc_token if is_on else None)  # Tracing may have begun meanwhile.
            return is_on
        with self._cond:
            is_on, token = bool(self._flag), self._itc_token
            if not is_on:
                try:
                    is_on = bool(self._cond.wait(timeout))
                finally:
                    token = self._cond._waiters.woken()
        if is_on:
            take_asked(token, None if timeout is None else poll_at(frame_at(1), "wait", YES))
        return is_on

    return wait


def _event_is_set(original: Any) -> Any:
    """If another one sets it anew meanwhile, it looks again."""

    def is_set(self: Any) -> bool:
        token, is_on = self._itc_token, bool(original(self))
        while token is not self._itc_token:
            token, is_on = self._itc_token, bool(original(self))
        if is_on and token is not None and not is_internal(frame_at(1)):
            take_asked(token, poll_at(frame_at(1), "is_set", YES))
        return is_on

    return is_set


# Semaphores: the permits are handed on first in, first out, those that were there from the beginning first.


def _put_semaphores(patches: Patches) -> None:
    semaphore, bounded = threading.Semaphore, threading.BoundedSemaphore
    patches.put(semaphore, "_value", property(_value, _set_value))
    patches.wrap(semaphore, "__init__", _semaphore_begin)
    patches.wrap(semaphore, "acquire", _semaphore_acquire)
    patches.put(semaphore, "__enter__", semaphore.acquire)
    patches.wrap(semaphore, "release", _semaphore_release)
    patches.wrap(bounded, "release", _semaphore_release)


def _semaphore_begin(original: Any) -> Any:
    def __init__(self: Any, value: int = 1) -> None:
        original(self, value)
        is_the_programs = isinstance(self, threading.BoundedSemaphore) or not is_internal(frame_at(1))
        if is_the_programs and value == 1:
            self._itc_permit = OnePermit("Semaphore", frame_at(1))
        elif is_the_programs and value <= MOST_PERMITS:
            self._itc_permits = deque([None] * value)
            self._itc_counted = CountedPermits()

    return __init__


def _value(self: Any) -> Any:
    return self.__dict__["_value"]


def _set_value(self: Any, value: Any) -> None:
    """The library counts here, while nobody else has the semaphore:
    so the permits go from hand to hand in the order of its counting."""
    own = self.__dict__
    permits = own.get("_itc_permits")
    if permits is not None:
        more = value - own["_value"]
        if more > 0:
            permits.extend([local.permit] * more)
        elif more < 0:
            local.permit = permits.popleft() if permits else None
    elif (one_permit := own.get("_itc_permit")) is not None:
        local.permit = one_permit
    own["_value"] = value


def _counted_of(semaphore: Any) -> CountedPermits | None:
    """What counts its permits. In each block of tracing it begins with those that are there. None if nothing does,
    as too many tasks have given or taken some."""
    counted: CountedPermits | None = semaphore.__dict__.get("_itc_counted")
    if counted is None or state.note is None:
        return None
    if counted.block != state.block:
        with semaphore._cond:
            if counted.block != state.block:
                counted.begin(len(semaphore.__dict__["_itc_permits"]), state.block)
    return None if counted.is_over else counted


def _semaphore_acquire(original: Any) -> Any:
    def acquire(self: Any, blocking: bool = True, timeout: float | None = None) -> bool:
        counted = _counted_of(self)
        is_acquired = bool(original(self, blocking, timeout))
        if is_acquired and ("_itc_permits" in self.__dict__ or "_itc_permit" in self.__dict__):
            permit = local.permit
            if counted is not None and counted.block == state.block:
                take_permit(counted, permit, blocking and timeout is None)
            elif type(permit) is not OnePermit:
                take(permit)
            elif state.note is not None:
                took(permit, blocking and timeout is None)
        return is_acquired

    return acquire


def _semaphore_release(original: Any) -> Any:
    def release(self: Any, n: int = 1) -> Any:
        one_permit = self.__dict__.get("_itc_permit")
        if one_permit is not None and (n != 1 or one_permit.becomes_more(self.__dict__["_value"])):
            _have_permits(self, one_permit)
            one_permit = None
        if one_permit is not None and state.note is not None:
            gave(one_permit)
        elif one_permit is not None:
            one_permit.is_released()
        elif (counted := _counted_of(self)) is not None:
            local.permit = mark_permits(counted, n)
        elif "_itc_permits" in self.__dict__:
            local.permit = mark(SEMAPHORE)
        return original(self, n)

    return release


def _have_permits(semaphore: Any, permit: OnePermit) -> None:
    with semaphore._cond:
        own = semaphore.__dict__
        if own.pop("_itc_permit", None) is not None:
            own["_itc_permits"] = permit.as_permits(own["_value"])


# Barriers: the last one that arrives comes after all the others, and all leave after it.


def _put_barriers(patches: Patches) -> None:
    barrier = threading.Barrier
    patches.put(barrier, "_itc_arrived", ())
    patches.put(barrier, "_itc_opened", None)
    patches.wrap(barrier, "_enter", _barrier_enter)
    patches.wrap(barrier, "_release", _barrier_release)
    patches.wrap(barrier, "_wait", _barrier_wait)


def _barrier_enter(original: Any) -> Any:
    def _enter(self: Any) -> None:
        original(self)
        if self._count == 0:
            self._itc_arrived = []
        if state.note is not None and type(self._itc_arrived) is list:
            self._itc_arrived.append(mark(BARRIER))

    return _enter


def _barrier_release(original: Any) -> Any:
    def _release(self: Any) -> None:
        for token in self._itc_arrived:
            take(token)
        self._itc_arrived = ()
        original(self)
        self._itc_opened = mark(BARRIER)

    return _release


def _barrier_wait(original: Any) -> Any:
    def _wait(self: Any, timeout: float | None) -> None:
        original(self, timeout)
        take(self._itc_opened)

    return _wait
