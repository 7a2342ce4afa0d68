"""Locks that their owner may acquire again, as Python has them: those of `gevent`, and of `threading` beside it."""

from __future__ import annotations

import threading
from typing import Any

from ..model.frames import frame_at, is_internal
from ..model.lines import state
from .base import Patches
from .by_identity import ByIdentity
from .locks import OnePermit, gave, new_c_rlock, took

_locks: ByIdentity[OnePermit] = ByIdentity()
"""What is known of each lock of the program."""


def new_rlock(*words: Any, **named: Any) -> Any:
    """What `threading` makes. A library that puts tasks in the place of threads has it make locks of its own."""
    return _new_rlock(frame_at(1), *words, **named)


def rlock_of_condition(frame: Any) -> Any:
    """That of a condition which the program has made at this frame."""
    return _new_rlock(frame)


def _new_rlock(frame: Any, *words: Any, **named: Any) -> Any:
    if vars(threading)["_CRLock"] is not None:
        return new_c_rlock(frame, *words, **named)
    made = vars(threading)["_PyRLock"](*words, **named)
    if not is_internal(frame):
        _know(made, "gevent.RLock", frame)
    return made


def _know(lock: Any, kind: str, frame: Any) -> None:
    known = OnePermit(kind, frame)
    known._itc_identity.is_of_condition = False
    _locks.put(lock, known)


def known_lock(lock: Any) -> Any:
    """What is known of the lock, if it is one of tasks in the place of threads. Else the lock."""
    permits = getattr(lock, "_itc_permits", None)
    return _locks.get(lock) or getattr(permits, "one", None) or lock


def follow_class(patches: Patches, kind: Any, name: str) -> None:
    patches.wrap(kind, "__init__", lambda original: _begin(original, name))
    patches.wrap(kind, "acquire", _acquire)
    patches.wrap(kind, "release", _release)
    patches.wrap(kind, "_release_save", _release_save)
    patches.wrap(kind, "_acquire_restore", _acquire_restore)
    patches.put(kind, "__enter__", kind.acquire)


def _begin(original: Any, name: str) -> Any:
    def __init__(self: Any, *words: Any, **named: Any) -> None:
        original(self, *words, **named)
        frame = frame_at(1)
        if not is_internal(frame):
            _know(self, name, frame)

    return __init__


def _acquire(original: Any) -> Any:
    def acquire(self: Any, blocking: bool = True, *words: Any, **named: Any) -> Any:
        is_acquired = original(self, blocking, *words, **named)
        known = _locks.get(self)
        if is_acquired and known is not None and state.note is not None and self._count == 1:
            took(known, bool(blocking) and not words and not named)
        return is_acquired

    return acquire


def _release(original: Any) -> Any:
    def release(self: Any) -> None:
        known = _locks.get(self)
        if known is not None and state.note is not None and self._count == 1 and self._is_owned():
            gave(known)
        original(self)

    return release


def _release_save(original: Any) -> Any:
    def _release_save(self: Any) -> Any:
        known = _locks.get(self)
        if known is not None and state.note is not None:
            gave(known)
        return original(self)

    return _release_save


def _acquire_restore(original: Any) -> Any:
    def _acquire_restore(self: Any, state_of_lock: Any) -> None:
        original(self, state_of_lock)
        known = _locks.get(self)
        if known is not None and state.note is not None:
            took(known)

    return _acquire_restore
