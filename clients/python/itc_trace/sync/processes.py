"""Traces the locks and semaphores of `multiprocessing`, among the threads of this process."""

from __future__ import annotations

import contextlib
import threading
from collections import deque
from collections.abc import Iterator
from types import FrameType, ModuleType
from typing import Any

from ..record import following
from ..model.lines import SEMAPHORE, Line, Token, state
from ..model.lock_identity import LockIdentity
from ..record.noting import mark, take
from ..model.frames import frame_at, is_internal
from .base import Patches
from .later import once_imported
from .locks import became_signal, gave, took
from .shared_locks import about_to_acquire, find_name, has_taken, is_giving, keep_name, slot_of
from .shared_permits import KIND, PermitAsLock, SharedPermits

_MAKERS = (
    "multiprocessing.context", "multiprocessing.synchronize", "multiprocessing.sharedctypes",
    "itc_trace.sync.process_signals",
)
"""Modules that make locks for the program. Others of `multiprocessing` make them for themselves, and give no order."""
MOST_PERMITS = 65536
LOCKS = ("Lock", "RLock")


class _Own(threading.local):
    silent: frozenset[str] = frozenset()


_own = _Own()
_PLAIN_MAKERS = {name: getattr(threading, name) for name in ("Lock", "RLock")}


def put(patches: Patches) -> None:
    once_imported("multiprocessing.synchronize", lambda module: _put_locks(patches, module))
    once_imported("multiprocessing.managers", lambda module: _put_managers(patches, module))


def _put_locks(patches: Patches, module: ModuleType) -> None:
    kind: Any = vars(module)["SemLock"]
    patches.wrap(kind, "__init__", _begin)
    patches.wrap(kind, "__enter__", _enter)
    patches.wrap(kind, "__exit__", _exit)
    patches.wrap(kind, "__getstate__", _get_state)
    patches.wrap(kind, "__setstate__", _set_state)


def _put_managers(patches: Patches, module: ModuleType) -> None:
    """A manager hands what makes its locks to its process by name, and by these names there are the traced ones now."""
    kind: Any = vars(module)["SyncManager"]
    makers = {id(plain): getattr(threading, name) for name, plain in _PLAIN_MAKERS.items()}
    registry = {name: (makers.get(id(entry[0]), entry[0]), *entry[1:]) for name, entry in kind._registry.items()}
    patches.put(kind, "_registry", registry)


class _Lock:
    """What is known of a lock, and its methods. An `RLock` counts outermost alone."""

    def __init__(self, semlock: Any, kind: str, frame: Any) -> None:
        self._semlock = semlock
        self._is_recursive = kind == "RLock"
        self._itc_token: Token | None = None
        self._itc_holder: Line | None = None
        self._itc_identity = LockIdentity(f"multiprocessing.{kind}", frame)
        self._itc_identity.is_inside = True
        if frame is None:
            find_name(self._itc_identity, semlock.name)
        self._slot = slot_of(semlock.name)
        if self._slot is None:
            following.is_not_followed(kind)
        else:
            self._itc_identity.across = f"across{self._slot}"

    @property
    def identity(self) -> LockIdentity:
        return self._itc_identity

    def acquire(self, block: bool = True, timeout: float | None = None) -> bool:
        about_to_acquire(self._itc_identity)
        is_acquired = bool(self._semlock.acquire(block, timeout))
        if is_acquired:
            self.was_acquired(block and timeout is None)
        return is_acquired

    def was_acquired(self, has_waited: bool = True) -> None:
        if state.note is not None and self._is_outermost():
            self._itc_identity.times += 1
            has_taken(self._slot, self._itc_identity)
            took(self, has_waited)

    def release(self) -> None:
        self.is_released()
        self._semlock.release()

    def is_released(self) -> None:
        if state.note is not None and self._is_outermost():
            holder = self._itc_holder
            if (holder is None or holder.tracer is not state.tracer) and self._semlock._is_zero():
                became_signal(self._itc_identity)  # It was acquired by another process.
            gave(self)
            is_giving(self._slot, self._itc_identity)

    def _is_outermost(self) -> bool:
        return not self._is_recursive or self._semlock._count() == 1 and bool(self._semlock._is_mine())


class _Semaphore:
    """The permits of a semaphore, as those of `threading`."""

    def __init__(self, semlock: Any, value: int, maker: FrameType | None) -> None:
        self._semlock = semlock
        self._permits: deque[Token | None] = deque([None] * value)
        self.one = PermitAsLock(KIND, maker) if value == 1 and maker is not None else None

    @property
    def identity(self) -> LockIdentity | None:
        """That of a lock, if it is one."""
        return None if self.one is None else self.one._itc_identity

    def acquire(self, block: bool = True, timeout: float | None = None) -> bool:
        is_acquired = bool(self._semlock.acquire(block, timeout))
        if is_acquired:
            self.was_acquired(block and timeout is None)
        return is_acquired

    def was_acquired(self, has_waited: bool = True) -> None:
        token = self._permits.popleft() if self._permits else None
        if self.one is None:
            take(token)
        elif state.note is not None:
            self.one.hold(token, has_waited, is_only=not self.one.is_held)

    def release(self) -> None:
        self.is_released()
        try:
            self._semlock.release()
        except BaseException:
            self._permits.pop()
            raise

    def is_released(self) -> None:
        self._permits.append(mark(SEMAPHORE) if self.one is None else self.one.let_go())


def _begin(original: Any) -> Any:
    def __init__(self: Any, kind: int, value: int, maxvalue: int, **named: Any) -> None:
        original(self, kind, value, maxvalue, **named)
        frame = _maker(frame_at(1))
        name = type(self).__name__
        if name in _own.silent:
            return
        if frame is None or value > MOST_PERMITS:
            return
        if name in LOCKS:
            _trace(self, _Lock(self._semlock, name, frame))
        else:
            trace_permits(self, value, frame)

    return __init__


def _trace(lock: Any, traced: _Lock | _Semaphore | SharedPermits) -> None:
    lock._itc_traced, lock.acquire, lock.release = traced, traced.acquire, traced.release


def trace_permits(lock: Any, count: int, maker: FrameType | None = None) -> None:
    """From here on the permits of this semaphore give order, between processes too if these are traced.

    Of one that the program makes, which has a maker, one permit is a lock as well.
    """
    permits = SharedPermits.made(lock._semlock, count, maker)
    _trace(lock, permits or _Semaphore(lock._semlock, count, maker))


def _get_state(original: Any) -> Any:
    """Another process is given the lock."""

    def __getstate__(self: Any) -> Any:
        told, traced = original(self), self.__dict__.get("_itc_traced")
        identity = None if traced is None else traced.identity
        if identity is not None:
            keep_name(identity, self._semlock.name)
        return told

    return __getstate__


def _set_state(original: Any) -> Any:
    """In a process that was started anew: a lock that it was given.

    What orders by anything else has kept the process from being traced.
    """

    def __setstate__(self: Any, told: Any) -> None:
        original(self, told)
        name = type(self).__name__
        permits = None if name in LOCKS else SharedPermits.given(self._semlock)
        if name in LOCKS:
            _trace(self, _Lock(self._semlock, name, None))
        elif permits is not None:
            _trace(self, permits)

    return __setstate__


@contextlib.contextmanager
def silence(*kinds: str) -> Iterator[None]:
    """What this thread makes of these kinds within the block gives no order by itself."""
    before = _own.silent
    _own.silent = before | set(kinds)
    try:
        yield
    finally:
        _own.silent = before


def make_silent(lock: Any) -> None:
    """From here on this lock gives no order."""
    lock.__dict__.pop("_itc_traced", None)
    lock._make_methods()


def _maker(frame: Any) -> Any:
    """The frame of the program that makes it. None, if a module of the library makes it for itself."""
    while frame is not None and frame.f_globals.get("__name__") in _MAKERS:
        frame = frame.f_back
    if frame is None or is_internal(frame):
        return None
    name = frame.f_globals.get("__name__")
    return None if isinstance(name, str) and name.startswith("multiprocessing.") else frame


def _enter(original: Any) -> Any:
    def __enter__(self: Any) -> Any:
        traced = self.__dict__.get("_itc_traced")
        if traced is not None:
            about_to_acquire(traced.identity)
        told = original(self)
        if traced is not None:
            traced.was_acquired()
        return told

    return __enter__


def _exit(original: Any) -> Any:
    def __exit__(self: Any, *words: Any) -> Any:
        traced = self.__dict__.get("_itc_traced")
        if isinstance(traced, SharedPermits):
            traced.release()
            return None
        if traced is not None:
            traced.is_released()
        return original(self, *words)

    return __exit__
