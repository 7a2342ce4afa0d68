"""Traces conditions, events and barriers of `multiprocessing`. What they are built of gives no order by itself."""

from __future__ import annotations

from types import ModuleType
from typing import Any

from ..model.lines import EVENT, NOTIFY, Token, state
from ..model.frames import frame_at
from ..record import following
from ..record.noting import mark, take
from .base import Patches, like
from .later import once_imported
from .locks import is_of_condition
from .processes import make_silent, silence
from .shared_locks import has_taken, is_giving, slot_of
from .shared_permits import MOST_PARTIES, SharedMeetings, counted_of
from .values import making


def put(patches: Patches) -> None:
    once_imported("multiprocessing.synchronize", lambda module: _put_signals(patches, module))


def _put_signals(patches: Patches, module: ModuleType) -> None:
    condition, event, barrier = (vars(module)[name] for name in ("Condition", "Event", "Barrier"))
    patches.wrap(condition, "__init__", _begin_condition)
    patches.wrap(condition, "__setstate__", _set_condition)
    patches.wrap(condition, "notify", _notify)
    patches.wrap(event, "__init__", _begin_event)
    patches.put(event, "__getstate__", _state_of_event)
    patches.put(event, "__setstate__", _set_event)
    patches.put(event, "_itc_token", None)
    patches.put(event, "_itc_slot", None)
    patches.wrap(event, "set", _set)
    for name in ("wait", "is_set"):
        patches.wrap(event, name, _sees)
    patches.wrap(barrier, "__init__", _begin_barrier)
    patches.wrap(barrier, "__setstate__", _set_barrier)
    patches.put(barrier, "wait", like(barrier.wait, _wait_at_barrier(barrier.wait)))


# Conditions: whoever wakes up comes after whoever notified it, and acquires the lock.


class _WakeUps:
    """Who has notified last those that wait at a condition. He waits until they are awake."""

    def __init__(self, semlock: Any) -> None:
        self._wakes = semlock
        self._slot = slot_of(semlock.name)
        self._token: Token | None = None

    def acquire(self, block: bool = True, timeout: float | None = None) -> bool:
        """In place of the method by which the condition waits."""
        is_awake = bool(self._wakes.acquire(block, timeout))
        if is_awake and block and state.note is not None and not has_taken(self._slot):
            take(self._token)
        return is_awake

    def tell(self, depth: int) -> None:
        self._token = mark(NOTIFY, depth + 1)
        is_giving(self._slot)


def _follow_condition(condition: Any) -> None:
    traced = condition._lock.__dict__.get("_itc_traced")
    is_of_condition(traced)
    if traced is not None:
        waits = condition._wait_semaphore
        condition._itc_wake_ups = wake_ups = _WakeUps(waits._semlock)
        waits.acquire = wake_ups.acquire


def _notify(original: Any) -> Any:
    def notify(self: Any, n: int = 1) -> None:
        wake_ups = self.__dict__.get("_itc_wake_ups")
        if wake_ups is not None and state.note is not None and not self._sleeping_count._semlock._is_zero():
            caller = frame_at(1)
            wake_ups.tell(3 if caller is not None and caller.f_code.co_name == "notify_all" else 2)
        original(self, n)

    return notify


def _begin_condition(original: Any) -> Any:
    def __init__(self: Any, lock: Any = None, **named: Any) -> None:
        with silence("Semaphore"):
            original(self, lock, **named)
        _follow_condition(self)

    return __init__


def _set_condition(original: Any) -> Any:
    def __setstate__(self: Any, told: Any) -> None:
        original(self, told)
        _follow_condition(self)

    return __setstate__


# Events


def _begin_event(original: Any) -> Any:
    def __init__(self: Any, **named: Any) -> None:
        with silence("Lock", "RLock", "Semaphore"):
            original(self, **named)
        self._itc_slot = slot_of(self._flag._semlock.name)

    return __init__


def _state_of_event(self: Any) -> dict[str, Any]:
    """What another process is given. Where this one has set it last is a place of this process."""
    return {name: value for name, value in self.__dict__.items() if name != "_itc_token"}


def _set_event(self: Any, told: dict[str, Any]) -> None:
    """In a process that was started anew."""
    self.__dict__.update(told)
    make_silent(self._cond._lock)
    self._cond._make_methods()


def _set(original: Any) -> Any:
    def set(self: Any) -> None:
        if state.note is None:
            original(self)
            return
        with self._cond:
            if not self._flag.acquire(False):
                self._itc_token = mark(EVENT)
                is_giving(self._itc_slot)
            self._flag.release()
            self._cond.notify_all()

    return set


def _sees(original: Any) -> Any:
    def method(self: Any, *words: Any, **named: Any) -> bool:
        is_set = bool(original(self, *words, **named))
        if is_set and not has_taken(self._itc_slot):
            take(self._itc_token)
        return is_set

    return method


# Barriers are those of `threading`, whose order of the threads of a process is traced there.


def _begin_barrier(original: Any) -> Any:
    def __init__(self: Any, parties: int, action: Any = None, *words: Any, **named: Any) -> None:
        with silence("Lock", "RLock", "Semaphore"), making():
            original(self, parties, action, *words, **named)
        _share_meetings(self, is_made=True)
        if action is not None:
            following.is_not_followed("the action of a Barrier")

    return __init__


def _set_barrier(original: Any) -> Any:
    def __setstate__(self: Any, told: Any) -> None:
        original(self, told)
        make_silent(self._cond._lock)
        self._cond._make_methods()
        _share_meetings(self, is_made=False)

    return __setstate__


def _share_meetings(barrier: Any, is_made: bool) -> None:
    counted = None if barrier.parties > MOST_PARTIES else counted_of("met", barrier._cond._lock._semlock.name, is_made)
    if counted is not None:
        barrier._itc_meetings = SharedMeetings(counted, barrier.parties)
    elif barrier.parties > MOST_PARTIES:
        following.is_not_followed(f"a Barrier of more than {MOST_PARTIES} parties")


def _wait_at_barrier(original: Any) -> Any:
    """Nobody knows how far those have come who wait at one that breaks."""

    def wait(self: Any, timeout: float | None = None) -> int:
        meetings = self.__dict__.get("_itc_meetings")
        if meetings is None or state.note is None:
            return int(original(self, timeout))
        number = meetings.arrive()
        try:
            place = int(original(self, timeout))
        except BaseException:
            following.is_not_followed("a Barrier that is broken")
            raise
        meetings.leave(number)
        return place

    return wait
