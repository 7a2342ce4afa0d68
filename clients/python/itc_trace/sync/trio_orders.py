"""Traces what tasks of `trio` hand over to each other.

These are events, locks, conditions, permits, and the items of channels.
"""

from __future__ import annotations

import contextlib
import sys
from collections import deque
from collections.abc import Iterator
from types import ModuleType
from typing import Any

from ..model.frames import frame_at, is_internal
from ..model.lines import EVENT, NOTIFY, QUEUE, ROOM, Line, Token, What, state
from ..model.lock_identity import LockIdentity
from ..record.noting import mark, take
from .base import Patches
from .by_identity import ByIdentity
from .later import once_imported
from .locks import gave, is_of_condition, took
from .permits import MOST_PERMITS, Permits
from .queues import MOST_PLACES
from .trio_tasks import Quiet, current_task, known_of, protected

CLOSED = What("closed", "close channel", "see channel closed")
_set: ByIdentity[Token] = ByIdentity()
"""Where each event was set."""
_channels: ByIdentity[Channel] = ByIdentity()


def put(patches: Patches) -> None:
    once_imported("trio", lambda module: _put_all(patches, module))


def _put_all(patches: Patches, trio: ModuleType) -> None:
    def wrap_awaited(kind: Any, name: str, make: Any) -> None:
        patches.wrap(kind, name, protected(trio, make))

    names: Any = vars(trio._sync)
    patches.wrap(names["Event"], "set", _event_set)
    patches.wrap(names["Event"], "is_set", _event_is_set)
    wrap_awaited(names["Event"], "wait", _event_wait)
    _put_locks(patches, names, wrap_awaited)
    _put_permits(patches, names, wrap_awaited)
    channels: Any = vars(trio._channel)
    sends, receives = channels["MemorySendChannel"], channels["MemoryReceiveChannel"]
    patches.wrap(sends, "send_nowait", _send_at_once)
    wrap_awaited(sends, "send", _send)
    patches.wrap(sends, "close", _close)
    patches.wrap(receives, "receive_nowait", _receive_at_once)
    wrap_awaited(receives, "receive", _receive)


# Events


def _event_set(original: Any) -> Any:
    def set(self: Any) -> None:
        if state.note is not None and not self._flag:
            token = mark(EVENT)
            if token is not None:
                _set.put(self, token)
        with Quiet():
            original(self)

    return set


def _event_is_set(original: Any) -> Any:
    def is_set(self: Any) -> bool:
        is_on = bool(original(self))
        if is_on and state.note is not None and not is_internal(frame_at(1)):
            take(_set.get(self))
        return is_on

    return is_set


def _event_wait(original: Any) -> Any:
    async def wait(self: Any) -> None:
        await original(self)
        take(_set.get(self))

    return wait


# Locks and conditions


def _put_locks(patches: Patches, names: Any, wrap_awaited: Any) -> None:
    lock, condition = names["_LockImpl"], names["Condition"]
    for name in ("_itc_token", "_itc_holder", "_itc_identity"):
        patches.put(lock, name, None)
    patches.wrap(lock, "__init__", _lock_begin)
    wrap_awaited(lock, "acquire", _lock_acquire)
    patches.wrap(lock, "acquire_nowait", _lock_acquire_nowait)
    patches.wrap(lock, "release", _lock_release)
    patches.wrap(condition, "__init__", _condition_begin)
    wrap_awaited(condition, "wait", _condition_wait)
    for name in ("notify", "notify_all"):
        patches.wrap(condition, name, _condition_notify)


def _lock_begin(original: Any) -> Any:
    def __init__(self: Any, *words: Any, **named: Any) -> None:
        original(self, *words, **named)
        self._itc_identity = LockIdentity(f"trio.{type(self).__name__}", frame_at(1))
        self._itc_identity.is_inside = True

    return __init__


def _lock_acquire(original: Any) -> Any:
    async def acquire(self: Any) -> None:
        await original(self)
        if state.note is not None and self._itc_identity is not None:
            took(self)

    return acquire


def _lock_acquire_nowait(original: Any) -> Any:
    def acquire_nowait(self: Any) -> None:
        original(self)
        if state.note is not None and self._itc_identity is not None and not is_internal(frame_at(1)):
            took(self, has_waited=False)

    return acquire_nowait


def _lock_release(original: Any) -> Any:
    def release(self: Any) -> None:
        if state.note is not None and self._itc_holder is not None and self._owner is current_task():
            gave(self)
        with Quiet():
            original(self)

    return release


def _condition_begin(original: Any) -> Any:
    def __init__(self: Any, *words: Any, **named: Any) -> None:
        original(self, *words, **named)
        is_of_condition(self._lock, frame_at(1))

    return __init__


def _condition_notify(original: Any) -> Any:
    def notify(self: Any, *words: Any, **named: Any) -> None:
        is_of_condition(self._lock)
        token, waiting = mark(NOTIFY), list(self._lot._parked)
        original(self, *words, **named)
        for task in waiting:
            known = known_of(task)
            if known is not None and task not in self._lot._parked:
                known.notified = token

    return notify


def _condition_wait(original: Any) -> Any:
    async def wait(self: Any) -> None:
        is_of_condition(self._lock)
        await original(self)
        if state.note is not None and self._lock._itc_identity is not None:
            took(self._lock)
            known = known_of(self._lock._owner)
            if known is not None:
                take(known.notified)

    return wait


# Permits: those of a semaphore, and of a limiter. If there is one alone, it is a lock.


def _put_permits(patches: Patches, names: Any, wrap_awaited: Any) -> None:
    semaphore, limiter = names["Semaphore"], names["CapacityLimiter"]
    patches.wrap(semaphore, "__init__", _begin_semaphore)
    patches.wrap(limiter, "__init__", _begin_limiter)
    total = vars(limiter)["total_tokens"]
    patches.put(limiter, "total_tokens", property(total.fget, _set_total(total.fset), doc=total.__doc__))
    for kind, acquire, release in (
        (semaphore, "acquire", "release"), (limiter, "acquire_on_behalf_of", "release_on_behalf_of"),
    ):
        wrap_awaited(kind, acquire, _acquire_permit)
        patches.wrap(kind, f"{acquire}_nowait", _acquire_permit_nowait)
        patches.wrap(kind, release, _release_permit)


def _begin_semaphore(original: Any) -> Any:
    def __init__(self: Any, initial_value: int, *, max_value: int | None = None) -> None:
        original(self, initial_value, max_value=max_value)
        if initial_value <= MOST_PERMITS:
            self._itc_permits = Permits("trio.Semaphore", initial_value, frame_at(1))

    return __init__


def _begin_limiter(original: Any) -> Any:
    """That of trio itself, by which it limits its threads, hands nothing over."""

    def __init__(self: Any, total_tokens: float) -> None:
        original(self, total_tokens)
        frame = frame_at(1)
        if total_tokens <= MOST_PERMITS and not is_internal(frame):
            self._itc_permits = Permits("trio.CapacityLimiter", int(total_tokens), frame)

    return __init__


def _set_total(original: Any) -> Any:
    """Further permits are fresh ones. Whoever waits for one is woken by who gives it."""

    def total_tokens(self: Any, total: float) -> None:
        permits, before = self.__dict__.get("_itc_permits"), self.__dict__.get("_total_tokens", 0)
        original(self, total)
        if permits is not None and total != before:
            permits.grow(int(min(total, MOST_PERMITS) - before), 1 - len(self._borrowers))

    return total_tokens


def _acquire_permit(original: Any) -> Any:
    async def acquire(self: Any, *words: Any) -> None:
        await original(self, *words)
        permits = self.__dict__.get("_itc_permits")
        if permits is not None:
            permits.take()

    return acquire


def _acquire_permit_nowait(original: Any) -> Any:
    def acquire(self: Any, *words: Any) -> None:
        original(self, *words)
        permits = self.__dict__.get("_itc_permits")
        if permits is not None and not is_internal(frame_at(1)):
            permits.take()

    return acquire


def _release_permit(original: Any) -> Any:
    def release(self: Any, *words: Any) -> None:
        permits, free = self.__dict__.get("_itc_permits"), getattr(self, "_value", 0)
        with Quiet():
            original(self, *words)
        if permits is not None:
            permits.give(free)

    return release


# Channels


class Channel:
    """What is known of the items and the places of a channel."""

    __slots__ = ("items", "places", "waiting", "closed")

    def __init__(self, size: float) -> None:
        self.items: deque[Token | None] = deque()
        """Of what lies in the buffer."""
        self.places: deque[Token | None] = deque([None] * int(size) if size <= MOST_PLACES else ())
        self.waiting: dict[Any, Token | None] = {}
        """Of the tasks that wait to send or to receive, where they were about to."""
        self.closed: dict[Line, Token] = {}
        """Where each task has closed an end for sending."""

    @contextlib.contextmanager
    def has_waiting(self, token: Token | None) -> Iterator[None]:
        task = current_task()
        self.waiting[task] = token
        try:
            yield
        finally:
            self.waiting.pop(task, None)

    @contextlib.contextmanager
    def sees_closed(self) -> Iterator[None]:
        """Whoever sees the end of the channel comes after all who have closed it."""
        try:
            yield
        except sys.modules["trio"].EndOfChannel:
            for token in self.closed.values():
                take(token)
            raise

    def fits(self, known: Any) -> None:
        """What was sent before tracing began, or by a send that has failed, has no place."""
        while len(self.items) < len(known.data):
            self.items.append(None)
        while len(self.items) > len(known.data):
            self.items.pop()


def _channel_of(known: Any) -> Channel:
    channel = _channels.get(known)
    if channel is None:
        channel = Channel(known.max_buffer_size)
        _channels.put(known, channel)
    return channel


def _send_at_once(original: Any) -> Any:
    """An item goes to who waits, or into the buffer."""

    def send_nowait(self: Any, value: Any) -> None:
        if state.note is None:
            original(self, value)
            return
        known = self._state
        channel, token, taker = _channel_of(known), mark(QUEUE), next(iter(known.receive_tasks), None)
        channel.fits(known)
        original(self, value)  # It wakes the taker up, if there is one.
        if taker is None:
            channel.items.append(token)
            take(channel.places.popleft() if channel.places else None)
        elif known.max_buffer_size == 0:
            take(channel.waiting.get(taker))

    return send_nowait


def _send(original: Any) -> Any:
    async def send(self: Any, value: Any) -> None:
        if state.note is None:
            await original(self, value)
            return
        with _channel_of(self._state).has_waiting(mark(QUEUE)):
            await original(self, value)

    return send


def _receive_at_once(original: Any) -> Any:
    """An item comes from the buffer, where the first one who waits for room puts the next one."""

    def receive_nowait(self: Any) -> Any:
        if state.note is None:
            return original(self)
        known = self._state
        channel, sender = _channel_of(known), next(iter(known.send_tasks), None)
        channel.fits(known)
        with channel.sees_closed():
            value = original(self)  # It wakes the sender up, if there is one.
        if sender is not None:
            channel.items.append(channel.waiting.get(sender))
        take(channel.items.popleft() if channel.items else None)
        if sender is None and 0 < known.max_buffer_size <= MOST_PLACES:
            channel.places.append(mark(ROOM))
        return value

    return receive_nowait


def _receive(original: Any) -> Any:
    async def receive(self: Any) -> Any:
        if state.note is None:
            return await original(self)
        channel = _channel_of(self._state)
        token = mark(ROOM) if self._state.max_buffer_size == 0 else None
        with channel.has_waiting(token), channel.sees_closed():
            return await original(self)

    return receive


def _close(original: Any) -> Any:
    def close(self: Any) -> None:
        token = None if self._closed else mark(CLOSED)
        if token is not None:
            _channel_of(self._state).closed[token.line] = token
        original(self)

    return close
