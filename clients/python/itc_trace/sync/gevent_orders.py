"""Traces what greenlets of `gevent` hand over to each other: events, results, locks, permits, and items of queues."""

from __future__ import annotations

import sys
import threading
from collections import deque
from collections.abc import Callable
from types import ModuleType
from typing import Any

from ..model.frames import frame_at, is_internal
from ..model.lines import DONE_ITEM, EVENT, QUEUE, ROOM, SEMAPHORE, state
from .base import Patches
from .gevent_tasks import LIBRARY, be_named, see, with_patches
from .greenlets import Place, come_after, gives, known_now
from .later import once_imported
from .permits import MOST_PERMITS, Permits
from .python_rlocks import follow_class
from .queues import MOST_PLACES, Items

_KINDS_OF_LOCKS = frozenset(("LockType",))


def put(patches: Patches) -> None:
    if LIBRARY in sys.modules:
        return
    for name, make in (
        ("gevent.event", _put_events), ("gevent._semaphore", _put_semaphores), ("gevent.lock", _put_locks),
        ("gevent.queue", _put_queues),
    ):
        once_imported(name, with_patches(patches, make))


def _replace(patches: Patches, module: ModuleType, name: str, make: Callable[[Any], Any]) -> None:
    plain = vars(module)[name]
    made = make(plain)
    be_named(made, plain)
    patches.put(module, name, made)


# Events and results


def _put_events(patches: Patches, module: ModuleType) -> None:
    _replace(patches, module, "Event", _event_class)
    _replace(patches, module, "AsyncResult", _result_class)


def _event_class(plain: Any) -> Any:
    class Event(plain):  # type: ignore[misc]
        _itc_place: Place = None
        _itc_is_quiet = False

        def __init__(self) -> None:
            plain.__init__(self)
            self._itc_is_quiet = is_internal(frame_at(1))

        def set(self) -> None:
            if state.note is not None and not self._itc_is_quiet and not plain.is_set(self):
                self._itc_place = gives(EVENT)
            plain.set(self)

        def wait(self, timeout: Any = None) -> Any:
            is_on = plain.wait(self, timeout)
            if is_on:
                see(self)
            return is_on

        def is_set(self) -> Any:
            return _seen(self, plain.is_set(self))

        def isSet(self) -> Any:
            return _seen(self, plain.isSet(self))

        def ready(self) -> Any:
            return _seen(self, plain.ready(self))

    return Event


def _seen(one: Any, is_ready: Any) -> Any:
    if is_ready and state.note is not None and not is_internal(frame_at(2)):
        see(one, 2)
    return is_ready


def _result_class(plain: Any) -> Any:
    class AsyncResult(plain):  # type: ignore[misc]
        _itc_place: Place = None
        _itc_job: Any = None

        def set(self, value: Any = None) -> None:
            self._be_set()
            plain.set(self, value)

        def set_exception(self, exception: Any, exc_info: Any = None) -> None:
            self._be_set()
            plain.set_exception(self, exception, exc_info)

        def set_result(self, value: Any = None) -> None:
            self._be_set()
            plain.set(self, value)

        def __call__(self, source: Any) -> None:
            self._be_set()
            plain.__call__(self, source)

        def _be_set(self) -> None:
            if state.note is not None and self._itc_job is None and not plain.ready(self):
                self._itc_place = gives(EVENT)

        def get(self, block: Any = True, timeout: Any = None) -> Any:
            try:
                return plain.get(self, block, timeout)
            finally:
                if plain.ready(self):
                    see(self)

        def result(self, timeout: Any = None) -> Any:
            return self.get(timeout=timeout)

        def wait(self, timeout: Any = None) -> Any:
            found = plain.wait(self, timeout)
            if plain.ready(self):
                see(self)
            return found

        def ready(self) -> Any:
            return _seen(self, plain.ready(self))

        def done(self) -> Any:
            return _seen(self, plain.ready(self))

        def successful(self) -> Any:
            return _seen(self, plain.successful(self))

        @property
        def value(self) -> Any:
            _seen(self, plain.ready(self))
            return plain.value.__get__(self)

        @property
        def exception(self) -> Any:
            _seen(self, plain.ready(self))
            return plain.exception.__get__(self)

    return AsyncResult


# Locks and permits


class _Permits(Permits):
    """What a hub gives comes from whoever had it called."""

    __slots__ = ()

    def _mark(self) -> Any:
        return gives(SEMAPHORE)

    def _take(self, place: Any) -> None:
        come_after(place)


def _put_semaphores(patches: Patches, module: ModuleType) -> None:
    for name in ("Semaphore", "BoundedSemaphore"):
        _replace(patches, module, name, _semaphore_class)


def _semaphore_class(plain: Any) -> Any:
    class Semaphore(plain):  # type: ignore[misc]
        _itc_permits: Any = None
        _itc_acquiring: Any = ()

        def __init__(self, *words: Any, **named: Any) -> None:
            plain.__init__(self, *words, **named)
            frame = frame_at(1)
            if not is_internal(frame) and self.counter <= MOST_PERMITS:
                is_lock = type(self).__name__ in _KINDS_OF_LOCKS
                kind = "Lock" if is_lock else "Semaphore"
                self._itc_permits = _Permits(f"gevent.{kind}", self.counter, frame)
                if is_lock and self._itc_permits.one is not None:
                    self._itc_permits.one._itc_identity.is_of_condition = False

        def acquire(self, blocking: Any = True, timeout: Any = None) -> Any:
            permits = self._itc_permits
            if permits is None or state.note is None or known_now() in self._itc_acquiring:
                return plain.acquire(self, blocking, timeout)
            known = known_now()
            self._itc_acquiring = (*self._itc_acquiring, known)
            try:
                is_acquired = plain.acquire(self, blocking, timeout)
            finally:
                self._itc_acquiring = tuple(one for one in self._itc_acquiring if one is not known)
            if is_acquired:
                permits.take(bool(blocking) and timeout is None)
            return is_acquired

        def __enter__(self) -> Any:
            self.acquire()

        def release(self) -> Any:
            permits = self._itc_permits
            if permits is not None and state.note is not None:
                if known_now().is_hub and permits.one is not None:
                    permits.grow(0, self.counter)
                is_over = hasattr(self, "_initial_value") and self.counter >= self._initial_value
                if not is_over:
                    permits.give(self.counter)
            return plain.release(self)

        def __exit__(self, *_: object) -> None:
            self.release()

    return Semaphore


def _put_locks(patches: Patches, module: ModuleType) -> None:
    follow_class(patches, vars(module)["RLock"], "gevent.RLock")
    follow_class(patches, vars(threading)["_PyRLock"], "gevent.RLock")


# Queues


class _Putting:
    """An item that a greenlet is about to put, perhaps once there is room."""

    __slots__ = ("item", "place", "known", "is_met", "met")

    def __init__(self, item: Any) -> None:
        self.item = item
        self.place = gives(QUEUE)
        self.known = known_now()
        self.is_met = False
        self.met: Place = None
        """Where the greenlet came to get it, if it goes from hand to hand."""


def _put_queues(patches: Patches, module: ModuleType) -> None:
    for name in ("Queue", "PriorityQueue", "LifoQueue", "JoinableQueue"):
        _replace(patches, module, name, _queue_class)
    _replace(patches, module, "Channel", _channel_class)


def _queue_class(plain: Any) -> Any:
    class Queue(plain):  # type: ignore[misc]
        _itc_putting: Any = ()
        _itc_items: Any = None
        _itc_places: Any = None

        def put(self, item: Any, block: Any = True, timeout: Any = None) -> None:
            if state.note is None:
                plain.put(self, item, block, timeout)
                return
            putting = _Putting(item)
            self._itc_putting = (*self._itc_putting, putting)
            try:
                plain.put(self, item, block, timeout)
            finally:
                self._itc_putting = tuple(one for one in self._itc_putting if one is not putting)

        def _put(self, item: Any) -> None:
            if state.note is not None or self._itc_items is not None:
                putting = next((one for one in self._itc_putting if one.item is item), None)
                self._itc_putting = tuple(one for one in self._itc_putting if one is not putting)
                places = _places_of(self)
                if places and putting is not None:
                    _use_room(putting, places.popleft())
                _items_of(self, plain).add(item, None if putting is None else putting.place)
            plain._put(self, item)

        def _get(self) -> Any:
            places = _places_of(self) if state.note is not None else None
            item = plain._get(self)
            if self._itc_items is not None:
                come_after(self._itc_items.remove(item))
            if places is not None:
                places.append(gives(ROOM))
            return item

        if hasattr(plain, "task_done"):

            def task_done(self) -> None:
                if state.note is not None:
                    done = self.__dict__.setdefault("_itc_done", {})
                    done[known_now()] = gives(DONE_ITEM)
                plain.task_done(self)

            def join(self, timeout: Any = None) -> Any:
                is_done = plain.join(self, timeout)
                if is_done and state.note is not None:
                    for one in list(self.__dict__.get("_itc_done", {}).values()):
                        come_after(one)
                return is_done

    return Queue


def _items_of(one: Any, plain: Any) -> Items:
    """What lies in a queue. What lay there before was put while nothing was traced."""
    if one._itc_items is None:
        one._itc_items = Items(plain.__name__ == "LifoQueue", list(one.queue or ()))
    items: Items = one._itc_items
    return items


def _places_of(one: Any) -> deque[Place] | None:
    """The places of a queue that has few. Who puts takes the place that was free first."""
    size = one.maxsize
    if size is None or not 0 < size <= MOST_PLACES:
        return None
    if one._itc_places is None:
        one._itc_places = deque([None] * max(0, size - one.qsize()))
    places: deque[Place] = one._itc_places
    return places


def _use_room(putting: _Putting, room: Place) -> None:
    if putting.known is known_now():
        come_after(room)
    elif room is not None:
        putting.known.wakes.append(room)


def _channel_class(plain: Any) -> Any:
    """Whoever puts and whoever gets meet: each comes after where the other one came to do so."""

    class Channel(plain):  # type: ignore[misc]
        _itc_putting: Any = ()

        def put(self, item: Any, block: Any = True, timeout: Any = None) -> None:
            if state.note is None:
                plain.put(self, item, block, timeout)
                return
            putting = _Putting(item)
            self._itc_putting = (*self._itc_putting, putting)
            try:
                plain.put(self, item, block, timeout)
                come_after(putting.met)
            finally:
                self._itc_putting = tuple(one for one in self._itc_putting if one is not putting)

        def get(self, block: Any = True, timeout: Any = None) -> Any:
            arrived = gives(ROOM)
            item = plain.get(self, block, timeout)
            putting = next((one for one in self._itc_putting if one.item is item and not one.is_met), None)
            if putting is not None:
                putting.is_met, putting.met = True, arrived
                come_after(putting.place)
            return item

        def __next__(self) -> Any:
            return _next_of(self)

        next = __next__

    return Channel


def _next_of(queue: Any) -> Any:
    item = queue.get()
    if item is StopIteration:
        raise item
    return item
