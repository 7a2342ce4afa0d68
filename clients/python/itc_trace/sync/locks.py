"""Traced locks: a release is a message to whoever acquires next.

A traced lock has three fields: the token of its last release, its identity, and the line of the task that holds it.
"""

from __future__ import annotations

import _thread
import contextlib
import functools
import linecache
import re
import sys
from _thread import get_ident
from collections import deque
from collections.abc import Iterable
from sys import _getframe
from types import CodeType, FrameType
from typing import Any

from ..model.lines import MARK, TAKE, Line, Section, Stretch, Token, state
from ..model.lock_identity import LockIdentity, Signal
from ..record.loops import ASYNCIO, no_loop
from ..record.nesting import note_nested, note_signal
from ..record.noting import current, line_of_now, local
from ..model.frames import frame_at, is_internal, place, place_of
from ..model.stretches import MOST_OF_STRETCH, STRETCHES, TURNS
from .base import name_as

_is_walked = False
_WAITS = re.compile(r"\.(wait|wait_for|notify|notify_all|notifyAll)\b")

_STACK = contextlib.ExitStack.enter_context.__code__
_ASYNC_STACK = contextlib.AsyncExitStack.enter_async_context.__code__
"""Code that acquires a lock for whoever calls it. It is compared by identity, as the hash of code is dear."""

_allocate = _thread.allocate_lock
_PlainLock: Any = _thread.LockType
_PlainRLock: Any = vars(_thread)["RLock"]
IS_CALLED = sys.version_info >= (3, 13)
"""Whether programs call the type of a lock to make one. Before it was a function that did."""


class _LikeLock(type):
    """Every lock of the library is an instance of the traced type too."""

    def __instancecheck__(cls, instance: object) -> bool:
        return isinstance(instance, _PlainLock)


_RLOCKS: set[type] = set()
"""The types that stand for that of the library."""


def stands_for_rlock(kind: type) -> None:
    _RLOCKS.add(kind)


class _LikeRLock(type):
    """The same of locks that their owner may acquire again, but for classes of the program."""

    def __instancecheck__(cls, instance: object) -> bool:
        return isinstance(instance, _PlainRLock) if cls in _RLOCKS else type.__instancecheck__(cls, instance)


class TracedLock(metaclass=_LikeLock):
    """A lock object is a synchronization primitive.

    The last release is known to whoever acquires it next.
    """

    __slots__ = ("_lock", "_itc_token", "_itc_identity", "_itc_holder", "__weakref__")

    _lock: Any
    _itc_token: Token | None
    _itc_identity: LockIdentity
    _itc_holder: Line | None

    def __new__(cls) -> Any:
        if not IS_CALLED:
            raise TypeError("cannot create '_thread.lock' instances")
        frame = frame_at(1)
        return _allocate() if is_internal(frame) else traced_lock(frame)

    @property  # type: ignore[misc]
    def __class__(self) -> Any:
        return _thread.LockType  # It is this class while locks are traced.

    def acquire(self, blocking: bool = True, timeout: float = -1) -> bool:
        if not self._lock.acquire(blocking, timeout):
            return False
        if state.note is not None:
            took(self, blocking and timeout < 0)
        return True

    def __enter__(self) -> bool:
        self._lock.acquire()
        if state.note is not None:
            took(self)
        return True

    def release(self) -> None:
        if state.note is not None:
            gave(self)
        self._lock.release()

    def __exit__(self, *_: object) -> None:
        if state.note is not None:
            gave(self)
        self._lock.release()

    def locked(self) -> bool:
        return bool(self._lock.locked())

    acquire_lock = acquire
    release_lock = release
    locked_lock = locked

    def _at_fork_reinit(self) -> None:
        self._lock._at_fork_reinit()
        self._itc_token = self._itc_holder = None

    def __eq__(self, other: object) -> Any:
        """It may stand before a lock that somebody has as a key."""
        return True if self is other or self._lock is other else NotImplemented

    def __hash__(self) -> int:
        return hash(self._lock)

    def __reduce__(self) -> Any:
        raise TypeError("cannot pickle '_thread.lock' object")

    def __repr__(self) -> str:
        return repr(self._lock)


QUIET: set[type] = {_PlainLock}
"""The types of locks whose conditions tell of nothing if the library alone waits there."""


def are_quiet(kind: type) -> None:
    QUIET.add(kind)


class TracedRLock(_PlainRLock, metaclass=_LikeRLock):  # type: ignore[misc]
    """A lock that its owner may acquire again. Only what happens outermost is a message."""

    __slots__ = ("_itc_token", "_itc_identity", "_itc_holder", "_depth")

    _itc_token: Token | None
    _itc_identity: LockIdentity
    _itc_holder: Line | None
    _depth: int

    def __new__(cls, *words: Any, **named: Any) -> Any:
        frame = frame_at(1)
        if is_internal(frame):
            return _PlainRLock(*words, **named)
        return traced_rlock(frame, cls, *words, **named)

    def acquire(self, blocking: bool = True, timeout: float = -1) -> bool:
        if not _PlainRLock.acquire(self, blocking, timeout):
            return False
        self._depth += 1
        if self._depth == 1 and state.note is not None:
            took(self, blocking and timeout < 0)
        return True

    def __enter__(self) -> bool:
        _PlainRLock.acquire(self)
        self._depth += 1
        if self._depth == 1 and state.note is not None:
            took(self)
        return True

    def release(self) -> None:
        if _PlainRLock._is_owned(self):
            self._depth -= 1
            if self._depth == 0 and state.note is not None:
                gave(self)
        _PlainRLock.release(self)

    def __exit__(self, *_: object) -> None:
        self.release()

    def _release_save(self) -> Any:
        depth, self._depth = self._depth, 0
        if state.note is not None:
            gave(self)
        return _PlainRLock._release_save(self), depth

    def _acquire_restore(self, saved: Any) -> None:
        _PlainRLock._acquire_restore(self, saved[0])
        self._depth = saved[1]
        if state.note is not None:
            took(self)

    def _at_fork_reinit(self) -> None:
        _PlainRLock._at_fork_reinit(self)
        self._itc_token = self._itc_holder = None
        self._depth = 0


    def __repr__(self) -> str:
        told: str = _PlainRLock.__repr__(self)
        return told.replace(" RLock object", " _thread.RLock object", 1) if type(self) is TracedRLock else told

    def __reduce_ex__(self, protocol: Any) -> Any:
        raise TypeError(
            f"cannot pickle '{'_thread.' if type(self) is TracedRLock else ''}{type(self).__name__}' object"
        )


stands_for_rlock(TracedRLock)


for _kind in (_LikeLock, _LikeRLock):
    name_as(_kind, "type", "builtins")
name_as(TracedLock, "lock", "_thread")
# Programs look whether it is the one that a signal handler may acquire, and it is.
name_as(TracedRLock, "RLock", "_thread")


def allocate_lock() -> Any:
    frame = frame_at(1)
    return _allocate() if is_internal(frame) else traced_lock(frame)


def new_c_rlock(frame: FrameType | None, *words: Any, **named: Any) -> Any:
    return _PlainRLock(*words, **named) if is_internal(frame) else traced_rlock(frame, TracedRLock, *words, **named)


def traced_lock(frame: Any, kind: Any = TracedLock, lock: Any = None) -> Any:
    """One that was made where the frame stands, or a lock that is there already."""
    made = object.__new__(kind)
    made._lock = lock or _allocate()
    made._itc_identity = LockIdentity("Lock", frame)
    made._itc_token = made._itc_holder = None
    return made


def traced_rlock(frame: Any, cls: Any = TracedRLock, *words: Any, **named: Any) -> Any:
    """One that was made where the frame stands."""
    made = _PlainRLock.__new__(cls, *words, **named)
    made._itc_identity = LockIdentity("RLock", frame)
    made._itc_token = made._itc_holder = None
    made._depth = 0
    return made


class OnePermit:
    """A semaphore of one permit, as a lock. What it hands over is meant."""

    __slots__ = ("_itc_token", "_itc_identity", "_itc_holder")

    def __init__(self, kind: str, frame: FrameType | None) -> None:
        self._itc_token: Token | None = None
        self._itc_holder: Line | None = None
        self._itc_identity = LockIdentity(kind, frame)
        self._itc_identity.is_inside = self._itc_identity.is_of_condition = True

    def as_permits(self, free: int) -> deque[Token | None]:
        """It is about to have more than one permit, and has so many free ones: it is no lock."""
        became_signal(self._itc_identity)
        return deque([self._itc_token] * free)

    @property
    def is_held(self) -> bool:
        return self._itc_holder is not None

    def becomes_more(self, free: int) -> bool:
        """Whether a release makes it more than one permit. Who acquired it while nothing was traced is not known."""
        return not self.is_held and (state.note is not None or free > 0)

    def is_released(self) -> None:
        """While nothing is traced."""
        self._itc_holder = None


def is_of_condition(lock: Any, maker: FrameType | None = None) -> None:
    """The lock, where it is a traced one, guards what those look at who wait at a condition.

    If nobody has waited yet, the file that makes the condition says whether anybody will. Without that it is a lock as
    any other.
    """
    identity = getattr(lock, "_itc_identity", None)
    if identity is not None:
        identity.is_inside = True
        if maker is None or _may_wait(maker.f_code.co_filename):
            identity.is_of_condition = True


@functools.cache
def _may_wait(file: str) -> bool:
    """Whether code of the file waits or notifies, or cannot be read."""
    lines = linecache.getlines(file)
    return not lines or any(_WAITS.search(line) for line in lines)


def gave(lock: Any) -> None:
    """Notes that the lock is about to be released."""
    thread = get_ident()
    stretch = STRETCHES.pop(thread, None)
    line = line_of_now()
    identity: LockIdentity = lock._itc_identity
    if identity.block != state.block:
        identity.begin(state.block)
    section = line.section
    if section is not None and section.is_entered_again and section.token.what is identity:
        held = line.held
        if held and held[-1] is identity and not identity.signal:  # Nothing has happened that is not in its stretch.
            section.is_entered_again = False
            lock._itc_holder = None
            line.held = () if held[0] is identity else held[:-1]
            lock._itc_token = section.token
            return
    code, instruction = place(frame_at(2))
    holder, lock._itc_holder = lock._itc_holder, None
    if holder is line:
        held = line.held
        if held and held[-1] is identity:
            line.held = () if held[0] is identity else held[:-1]
        else:
            _outlived(line, identity)
    elif holder is not None and holder.tracer is state.tracer:
        _remove(holder, identity)
        became_signal(identity)
    what: LockIdentity | Signal = identity.signal or identity
    is_seen = holder is not None and holder.tracer is state.tracer
    if not is_seen:  # It was acquired before tracing began. Nobody knows what it has enclosed since.
        what = Signal(identity)
        _remove(line, identity)
    if identity.is_crossed:
        identity.outlived = ()
    lock._itc_token = token = Token(line, what, code, instruction)
    line.section = None
    note = state.note
    if note is not None:
        note((MARK, token))
        line.section = Section(token, stretch) if is_seen else None


def _is_unseen(what: Any) -> bool:
    """Whether a release stands for that of a lock that was acquired before tracing began."""
    return type(what) is Signal and what is not what.identity.signal


def became_signal(identity: LockIdentity) -> None:
    """The lock hands over more than what it encloses. Whoever looks for cycles of locks passes it over."""
    if identity.block != state.block:
        identity.begin(state.block)
    if identity.signal is None:
        identity.become_signal()
        note_signal(identity)


def _outlived(line: Line, identity: LockIdentity) -> None:
    """The lock is released while one is held that was acquired after it: both hand over more than what they enclose.

    Whoever waits at a condition acquires the lock again for what it has held all along.
    """
    is_later, is_lent = False, _is_by_wait(frame_at(3))
    for one in line.held:
        if is_later:
            one.is_crossed = identity.is_crossed = True
            one.outlived += () if is_lent else (identity,)
        is_later = is_later or one is identity
    _remove(line, identity)


def _is_by_wait(frame: FrameType | None) -> bool:
    """Whether a condition releases the lock for the time of a wait."""
    while frame is not None and is_internal(frame):
        if frame.f_code.co_name == "wait":
            return True
        frame = frame.f_back
    return False


def _remove(line: Line, identity: LockIdentity) -> None:
    """Takes the lock from what the task holds, also where that task acquires and releases others meanwhile."""
    while True:
        held = line.held
        left = tuple(one for one in held if one is not identity)
        if line.held is held:
            line.held = left
            return


def acquired_at(frame: FrameType | None) -> tuple[CodeType | None, int]:
    """Where the program has a lock acquired, by itself or by an `ExitStack`."""
    while frame is not None and (is_internal(frame) or _is_stack(frame.f_code)):
        frame = frame.f_back
    return place_of(frame)


def _is_stack(code: CodeType | None) -> bool:
    return code is _STACK or code is _ASYNC_STACK


def is_entered_by_stack(lock: Any) -> None:
    """An `ExitStack` is about to acquire it, if it is a traced lock."""
    kind = type(lock)
    if kind is TracedLock or TracedRLock in kind.__mro__:
        lock._itc_identity.is_inside = True


def walk_always() -> None:
    """From here on functions of the package stand between a lock's methods and the program."""
    global _is_walked
    _is_walked = True
    _put_methods(_IN_PYTHON)


def _put_methods(methods: Iterable[dict[str, Any]]) -> None:
    """Gives both kinds of locks these methods, by which they are acquired and released."""
    for kind, own in zip((TracedLock, TracedRLock), methods):
        for name, method in own.items():
            for alias in (name, f"{name}_lock"):
                if alias in vars(kind):
                    setattr(kind, alias, method)


_IN_PYTHON = [
    {name: vars(kind)[name] for name in ("acquire", "__enter__", "release", "__exit__")}
    for kind in (TracedLock, TracedRLock)
]


def be_quick(quick: Any) -> bool:
    """From here on locks are acquired and released by methods in C, which leave to these what is rare.

    Those that another library has put in the place of the interpreter's keep these. Gives whether locks are quick now:
    what else is noted in C knows tasks and tokens by that.
    """
    is_quick = not _is_walked and all(kind.__module__ == "_thread" for kind in (_PlainLock, _PlainRLock))
    if is_quick:
        _put_methods(quick.lock_methods(
            turns=TURNS, local=local, asyncio=ASYNCIO, nothing=no_loop, took=_took_by_c, gave=_gave_by_c,
            lock=TracedLock, rlock=TracedRLock, token=Token, line=Line, section=Section, identity=LockIdentity,
            stretch=Stretch, plain_lock=_PlainLock, release=_PlainLock.release, acquire_rlock=_PlainRLock.acquire,
            release_rlock=_PlainRLock.release, owned_rlock=_PlainRLock._is_owned, most_of_stretch=MOST_OF_STRETCH,
        ))
    return is_quick


def _took_by_c(lock: Any) -> None:
    """It stands between `took` and the program, as a method in Python does."""
    took(lock)


def _gave_by_c(lock: Any) -> None:
    """The same of `gave`."""
    gave(lock)


def took(lock: Any, has_waited: bool = True) -> None:
    """Notes that the lock was acquired. While it is held nobody else needs the place of its last release.

    Whoever would not have waited for it, or not for ever, had a way back.
    """
    identity: LockIdentity = lock._itc_identity
    if identity.block != state.block:
        identity.begin(state.block)
    if not has_waited:
        identity.is_tried = True
    frame: FrameType | None = None
    where: tuple[CodeType | None, int] | None = None
    try:
        frame = _getframe(2)
        if identity.is_inside or _is_walked:
            where = place(frame)
            identity.taken_by, identity.taken_at = acquired_at(frame) if _is_stack(where[0]) else where
        else:
            identity.taken_by, identity.taken_at = frame.f_code, frame.f_lasti
    except ValueError:
        identity.taken_by = None  # The interpreter itself has called.
    token: Token | None = lock._itc_token
    if token is not None:
        line = token.line
        section = line.section  # Looked at once: another task may leave its own meanwhile.
        if section is not None and section.token is token and line_of_now() is line and line.section is section:
            stretch = section.stretch
            # A task of a loop begins another stretch with each of its turns.
            if stretch is None or len(stretch) < MOST_OF_STRETCH and (
                not stretch.loop or stretch.turn == TURNS.get(stretch.thread)
            ):
                section.is_entered_again = True  # The task goes on in it.
                lock._itc_holder = line
                lock._itc_token = None
                if stretch is not None:
                    STRETCHES[stretch.thread] = stretch
                if line.held:
                    line.held += (identity,)
                    note_nested(line.held, has_waited)
                else:
                    line.held = (identity,)
                return
    line = current()
    # Until somebody else comes after what it enclosed before, the next release is as the one before.
    lock._itc_holder = None if token is not None and token.line is line and _is_unseen(token.what) else line
    line.held += (identity,)
    if token is not None:
        lock._itc_token = None
        if line is not token.line and token.line.tracer is state.tracer:
            note = state.note
            if note is not None:
                note((TAKE, line, token, *(where or place(frame))))
    if len(line.held) > 1:
        note_nested(line.held, has_waited)
