"""Traces what tasks hand over to each other by `anyio` and `tornado`: free permits, events that are set, and items.

Who waits for one of these is woken by an event or a future that is traced already.
"""

from __future__ import annotations

import contextlib
import sys
from collections import deque
from collections.abc import Callable, Iterator
from functools import partial
from types import ModuleType
from typing import Any, NamedTuple

from ..model.frames import frame_at
from ..model.lines import EVENT, QUEUE, SEMAPHORE, Token, state
from ..record.noting import mark, take
from .base import Patches
from .by_identity import ByIdentity
from .later import once_imported
from .permits import MOST_PERMITS
from .queues import MOST_PLACES, Items, note_done, take_done
from .trio_orders import CLOSED

LIBRARIES = frozenset(("anyio", "tornado"))


class _Kind(NamedTuple):
    """A class of permits, the methods that take and give one, and how many are free.

    A limiter of many bounds threads and connections alone. Of such a one none seems free.
    """

    module: str
    name: str
    acquire: str
    release: str
    free: Callable[[Any], Any]


_KINDS = (
    _Kind("anyio._core._synchronization", "Lock", "acquire_nowait", "release", lambda lock: not lock.locked()),
    _Kind("anyio._core._synchronization", "Semaphore", "acquire_nowait", "release", lambda permits: permits.value),
    _Kind(
        "anyio._backends._asyncio", "CapacityLimiter", "acquire_on_behalf_of_nowait", "release_on_behalf_of",
        lambda permits: permits.available_tokens if permits.total_tokens <= MOST_PLACES else 0,
    ),
    _Kind("tornado.locks", "Semaphore", "acquire", "release", lambda permits: permits._value),
)
_freed: ByIdentity[deque[Token | None]] = ByIdentity()
"""Where each free permit was given, the first one first."""
_set: ByIdentity[Token] = ByIdentity()
"""Where each event was set."""
_items: ByIdentity[Items] = ByIdentity()
"""Where what lies in a stream or a queue was put."""
_closed: ByIdentity[list[Token]] = ByIdentity()
"""Where each end of a stream for sending was closed."""


def put(patches: Patches) -> None:
    for kind in _KINDS:
        once_imported(kind.module, partial(_put_kind, patches, kind))
    once_imported("tornado.locks", partial(_put_events, patches))
    once_imported("anyio.streams.memory", partial(_put_streams, patches))
    once_imported("tornado.queues", partial(_put_queues, patches))


def _wrap_all(patches: Patches, module: ModuleType, wrapped: dict[tuple[str, str], Any]) -> None:
    """Wraps methods of classes, or none: another version may have no such class here, or not with its own methods."""
    if all(method in getattr(vars(module).get(name), "__dict__", ()) for name, method in wrapped):
        for (name, method), how in wrapped.items():
            patches.wrap(vars(module)[name], method, how)


# Permits


def _put_kind(patches: Patches, kind: _Kind, module: ModuleType) -> None:
    _wrap_all(patches, module, {
        (kind.name, kind.acquire): partial(_taking, kind.free), (kind.name, kind.release): partial(_giving, kind.free),
    })


def _freed_of(permits: Any, free: float) -> deque[Token | None]:
    """As many places as permits are free. Who was woken has taken one that stands there, the first one."""
    places = _freed.get(permits)
    if places is None:
        places = deque()
        _freed.put(permits, places)
    while len(places) > free:
        places.popleft()
    places.extendleft([None] * (int(free) - len(places)))
    return places


def _taking(free: Callable[[Any], Any], original: Any) -> Any:
    def acquire(self: Any, *words: Any, **named: Any) -> Any:
        before = free(self)
        given = original(self, *words, **named)
        if state.note is not None and free(self) < before <= MOST_PERMITS:
            take(_freed_of(self, before).popleft())
        return given

    return acquire


def _giving(free: Callable[[Any], Any], original: Any) -> Any:
    def release(self: Any, *words: Any, **named: Any) -> Any:
        before, token = free(self), mark(SEMAPHORE)
        given = original(self, *words, **named)
        if before < free(self) <= MOST_PERMITS:
            _freed_of(self, before).append(token)
        return given

    return release


# Events


def _put_events(patches: Patches, module: ModuleType) -> None:
    _wrap_all(patches, module, {
        ("Event", "set"): _event_set, ("Event", "is_set"): _event_seen, ("Event", "wait"): _event_seen,
    })


def _event_set(original: Any) -> Any:
    def set(self: Any) -> None:
        token = None if self._value else mark(EVENT)
        if token is not None:
            _set.put(self, token)
        original(self)

    return set


def _event_seen(original: Any) -> Any:
    def seen(self: Any, *words: Any, **named: Any) -> Any:
        if self._value:
            take(_set.get(self))
        return original(self, *words, **named)

    return seen


# Items


def _items_of(queue: Any) -> Items:
    items = _items.get(queue)
    if items is None:
        items = Items(False, ())
        _items.put(queue, items)
    return items


def _put_streams(patches: Patches, module: ModuleType) -> None:
    sends, receives = "MemoryObjectSendStream", "MemoryObjectReceiveStream"
    _wrap_all(patches, module, {
        (sends, "send_nowait"): partial(_putting, lambda stream: stream._state), (sends, "send"): _send,
        (sends, "close"): _close, (receives, "receive_nowait"): _receive_nowait, (receives, "receive"): _receive,
    })


def _put_queues(patches: Patches, module: ModuleType) -> None:
    _wrap_all(patches, module, {
        ("Queue", "put_nowait"): partial(_putting, lambda queue: queue), ("Queue", "task_done"): _task_done,
        **{(name, "_get"): _get for name in ("Queue", "PriorityQueue", "LifoQueue")},
    })


def _putting(known: Callable[[Any], Any], original: Any) -> Any:
    """Where the library itself has called, and there is no room, it waits with the item."""

    def put_nowait(self: Any, item: Any) -> Any:
        if state.note is None or getattr(known(self), "waiting_receivers", None):
            return original(self, item)  # It goes to who waits.
        items = _items_of(known(self))
        items.add(item, mark(QUEUE))
        try:
            return original(self, item)
        except BaseException:
            if not _is_of_library(frame_at(1)):
                items.remove(item, from_end=True)
            raise

    return put_nowait


def _is_of_library(frame: Any) -> bool:
    return str(frame.f_globals.get("__name__")).partition(".")[0] in LIBRARIES


def _send(original: Any) -> Any:
    async def send(self: Any, item: Any) -> None:
        try:
            await original(self, item)
        except BaseException:
            _items_of(self._state).remove(item, from_end=True)
            raise

    return send


def _close(original: Any) -> Any:
    def close(self: Any) -> None:
        token = None if self._closed else mark(CLOSED)
        if token is not None:
            _closed.put(self._state, [*(_closed.get(self._state) or ()), token])
        original(self)

    return close


@contextlib.contextmanager
def _sees_end(stream: Any) -> Iterator[None]:
    """Whoever sees the end of a stream comes after all who have closed it."""
    try:
        yield
    except sys.modules["anyio"].EndOfStream:
        for token in _closed.get(stream._state) or ():
            take(token)
        raise


def _receive_nowait(original: Any) -> Any:
    def receive_nowait(self: Any) -> Any:
        with _sees_end(self):
            item = original(self)
        take(_items_of(self._state).remove(item))
        return item

    return receive_nowait


def _receive(original: Any) -> Any:
    async def receive(self: Any) -> Any:
        with _sees_end(self):
            return await original(self)

    return receive


def _get(original: Any) -> Any:
    def get(self: Any) -> Any:
        item = original(self)
        take(_items_of(self).remove(item))
        return item

    return get


def _task_done(original: Any) -> Any:
    """Who joins the queue is woken by the last one, who therefore comes after the others."""

    def task_done(self: Any) -> None:
        note_done(self)
        if self._unfinished_tasks == 1:
            take_done(self)
        original(self)

    return task_done
