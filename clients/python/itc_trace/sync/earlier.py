"""Follows locks, conditions and semaphores that a program made before it was traced for the first time.

A traced lock stands before each of these locks, and takes its place wherever the program refers to it. What cannot be
followed so makes the trace incomplete.
"""

from __future__ import annotations

import _thread
import gc
import queue
import sys
import threading
from collections import deque
from collections.abc import Iterator
from contextlib import contextmanager
from types import BuiltinMethodType
from typing import Any, NamedTuple
from weakref import getweakrefcount, ref

from ..model.lines import CountedPermits, state
from ..model.verdict import Cause, Unseen
from ..record import plain
from ..record.tuple_items import c_types
from .holders import Holder, holders_of, replace
from .locks import TracedRLock, gave, is_of_condition, stands_for_rlock, took, traced_lock, traced_rlock
from .queues import is_plain, mutex_of
from .threads import MOST_PERMITS
from .waiters import Waiters

_LOCKS: dict[type, str] = {type(_thread.allocate_lock()): "Lock", vars(_thread)["RLock"]: "RLock"}
_SimpleQueue: type = queue.SimpleQueue
"""As they are before anything is traced."""
_OF_BASES = frozenset("_tstate_lock _handle mutex not_empty not_full all_tasks_done _cond".split())
"""What classes of the library keep in objects of the program's own classes that are made of them."""
_OF_CONDITIONS = ("acquire", "release", "_release_save", "_acquire_restore", "_is_owned")
_POOLS = "multiprocessing.pool"
LONG = 0.5
"""In seconds: so long no other thread is let go on in between."""

_left: list[tuple[ref[Any], str]] = []
"""What is not followed, as long as it is there."""
_held: list[str] = []
"""The locks that were held as the first block began."""


class _Saved(NamedTuple):
    """How often a lock was acquired as a wait at a condition released it."""

    state: Any
    depth: int


class FollowedRLock(TracedRLock):
    """Stands before a lock that its owner may acquire again, and that somebody may still refer to."""

    __slots__ = ("_lock",)

    _lock: Any

    def acquire(self, blocking: bool = True, timeout: float = -1) -> bool:
        if not self._lock.acquire(blocking, timeout):
            return False
        self._depth += 1
        if self._depth == 1 and state.note is not None:
            took(self, blocking and timeout < 0)
        return True

    def __enter__(self) -> bool:
        self._lock.acquire()
        self._depth += 1
        if self._depth == 1 and state.note is not None:
            took(self)
        return True

    def release(self) -> None:
        if self._lock._is_owned():
            if self._depth <= 1 and state.note is not None:
                gave(self)
            self._depth = max(0, self._depth - 1)
        self._lock.release()

    def _release_save(self) -> Any:
        depth, self._depth = self._depth, 0
        if state.note is not None:
            gave(self)
        return _Saved(self._lock._release_save(), depth)

    def _acquire_restore(self, saved: Any) -> None:
        """Whoever waits already has saved what the lock itself has given."""
        is_ours = type(saved) is _Saved
        self._lock._acquire_restore(saved.state if is_ours else saved)
        self._depth = saved.depth if is_ours else 1
        if state.note is not None:
            took(self)

    def _is_owned(self) -> bool:
        return bool(self._lock._is_owned())

    def _recursion_count(self) -> int:
        return int(self._lock._recursion_count())

    def _at_fork_reinit(self) -> None:
        self._lock._at_fork_reinit()
        self._itc_token = self._itc_holder = None
        self._depth = 0

    def __eq__(self, other: object) -> Any:
        return True if self is other or self._lock is other else NotImplemented

    def __hash__(self) -> int:
        return hash(self._lock)

    def __repr__(self) -> str:
        return repr(self._lock)


FollowedRLock.__name__ = FollowedRLock.__qualname__ = "RLock"
FollowedRLock.__module__ = "_thread"
stands_for_rlock(FollowedRLock)


def not_followed() -> list[Unseen]:
    """What of the locks that were made before tracing began is not seen."""
    texts = [*(text for one, text in _left if one() is not None), *_held]
    return [Unseen(Cause.TRACER, text) for text in dict.fromkeys(texts)]


def block_has_ended() -> None:
    """What was held as the first block began is no matter of the next one."""
    _held.clear()


def follow_earlier() -> None:
    """From here on the locks, the conditions and the semaphores of the program are traced."""
    wanted = _wanted()
    c_types()  # To import it lets other threads go on.
    with _alone():
        things = [one for one in gc.get_objects() if issubclass(type(one), wanted)]
        if things:
            found = _Found(things)
            for one in things:
                found.follow(one)


def _wanted() -> tuple[type, ...]:
    pools = sys.modules.get(_POOLS)
    more = () if pools is None else (vars(pools)["ThreadPool"],)
    return (*_LOCKS, threading.Condition, threading.Semaphore, queue.Queue, _SimpleQueue, *more)


@contextmanager
def _alone() -> Iterator[None]:
    """No other thread goes on within the block. Those that wait by the interval before go on first."""
    before, is_collecting = sys.getswitchinterval(), gc.isenabled()
    sys.setswitchinterval(LONG)
    plain.sleep(0)
    gc.disable()
    try:
        yield
    finally:
        if is_collecting:
            gc.enable()
        sys.setswitchinterval(before)


class _Found:
    """What the program has of these kinds, and where."""

    def __init__(self, things: list[Any]) -> None:
        self._holders = holders_of(things)
        conditions = [one for one in things if issubclass(type(one), threading.Condition)]
        self._conditions = {id(one): one for one in conditions}
        self._of_conditions = {
            id(value) for one in conditions for value in map(vars(one).get, ("_waiters", *_OF_CONDITIONS))
        }
        """The methods of their locks that conditions keep, and the locks of those who wait."""
        self._made: dict[int, Any] = {}

    def follow(self, one: Any) -> None:
        if not self._is_of_program(one):
            return
        kind = type(one)
        if kind in _LOCKS:
            self._follow_lock(one, _LOCKS[kind])
        elif issubclass(kind, threading.Condition):
            self._follow_condition(one)
        elif issubclass(kind, threading.Semaphore):
            _follow_semaphore(one)
        elif issubclass(kind, queue.Queue):
            self._follow_queue(one)
        else:
            _leave(one, f"{kind.__name__} {self._name(one)}".strip())

    def _of(self, one: Any) -> list[Holder]:
        return [
            holder for holder in self._holders[id(one)]
            if id(holder.one) not in self._of_conditions and id(holder.owner) not in self._conditions
        ]

    def _is_of_program(self, one: Any) -> bool:
        """Whether it is not the library that keeps it for itself."""
        holders = self._of(one)
        if id(one) in self._of_conditions:
            return False
        return bool(holders) and not any(
            holder.is_of_library or holder.module == _POOLS or not _OF_BASES.isdisjoint(holder.names(one))
            for holder in holders
        )

    def _name(self, one: Any) -> str:
        names = [name for holder in self._of(one) for name in holder.names(one)]
        return names[0] if names else ""

    def _place(self, one: Any) -> str:
        return next((holder.place for holder in self._of(one) if holder.place), "?")

    def _follow_lock(self, lock: Any, kind: str) -> Any:
        """Gives the traced one that stands before it."""
        if id(lock) in self._made:
            return self._made[id(lock)]
        if kind == "Lock":
            made = traced_lock(None, lock=lock)
        else:
            made = traced_rlock(None, FollowedRLock)
            made._lock = lock
        self._made[id(lock)] = made
        name = self._name(lock)
        made._itc_identity.is_found(name, self._place(lock))
        are_replaced = [replace(holder, lock, made) for holder in self._of(lock)]
        if not all(are_replaced) or getweakrefcount(lock):
            _leave(lock, f"{kind} {name}".strip())
        elif _is_held(lock):
            what = f"{kind} {name}".strip()
            _held.append(f"what {what} encloses was not all seen: it was held as tracing began")
        for condition in self._conditions.values():
            if condition._lock is lock:
                _rebind(condition, made)
        return made

    def _follow_queue(self, one: Any) -> None:
        """What the program does with the lock of a queue is seen from here on."""
        lock = one.mutex
        if type(lock) in _LOCKS:
            made = mutex_of(one, None) if is_plain(one) else traced_lock(None, lock=lock)
            self._made[id(lock)] = made
            made._itc_identity.is_found(self._name(one), self._place(one))
            for holder in self._of(lock):
                replace(holder, lock, made)
            for condition in self._conditions.values():
                if condition._lock is lock:
                    _rebind(condition, made)

    def _follow_condition(self, condition: Any) -> None:
        lock = condition._lock
        if type(lock) in _LOCKS:  # Nobody but the condition has it.
            lock = self._follow_lock(lock, _LOCKS[type(lock)])
        if type(condition._waiters) is deque:
            condition._waiters = Waiters.of(condition._waiters)
        is_of_condition(lock)


def _rebind(condition: Any, lock: Any) -> None:
    """The condition goes on with the traced lock."""
    condition._lock = lock
    for name in _OF_CONDITIONS:
        if type(vars(condition).get(name)) is BuiltinMethodType:
            setattr(condition, name, getattr(lock, name))


def _is_held(lock: Any) -> bool:
    if hasattr(lock, "_is_owned") and lock._is_owned():
        return True
    if not lock.acquire(False):
        return True
    lock.release()
    return False


def _follow_semaphore(semaphore: Any) -> None:
    """Nobody knows how many permits it had. Those that are free are handed on, and so is each that is released."""
    own = vars(semaphore)
    if "_itc_permits" not in own and "_itc_permit" not in own and own["_value"] <= MOST_PERMITS:
        own["_itc_permits"] = deque([None] * own["_value"])
        own["_itc_counted"] = CountedPermits()


def _leave(one: Any, what: str) -> None:
    """It cannot be followed."""
    _left.append((ref(one), f"what {what} orders was not seen: it was made before tracing began"))
