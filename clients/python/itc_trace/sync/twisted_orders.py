"""Traces what tasks of Twisted hand over to each other: locks, permits of semaphores, and items of queues."""

from __future__ import annotations

from collections import deque
from functools import partial
from types import ModuleType
from typing import Any

from ..model.frames import frame_at
from ..model.lines import QUEUE, SEMAPHORE, Line, Token, state
from ..model.stretches import leave
from ..record.noting import local
from .base import Patches
from .locks import OnePermit, gave, took
from .permits import MOST_PERMITS, Permits
from .twisted_flows import Flow, Place, Places, Taken, come_after, gives, guarded, here, once_followed


def put(patches: Patches) -> None:
    once_followed(patches, "twisted.internet.defer", _put_all)


def _put_all(patches: Patches, module: ModuleType) -> None:
    names: Any = vars(module)
    lock, semaphore = names["DeferredLock"], names["DeferredSemaphore"]
    patches.wrap(names["_ConcurrencyPrimitive"], "__init__", lambda original: _begin_lock(original, lock))
    patches.wrap(semaphore, "__init__", _begin_semaphore)
    for kind in (lock, semaphore):
        patches.wrap(kind, "acquire", _acquire)
        patches.wrap(kind, "release", _release)
    patches.wrap(names["DeferredQueue"], "put", _put)
    patches.wrap(names["DeferredQueue"], "get", _get)


# Locks and permits


def _begin_lock(original: Any, kind: Any) -> Any:
    def __init__(self: Any, *words: Any, **named: Any) -> None:
        original(self, *words, **named)
        if isinstance(self, kind):
            permits = self._itc_permits = Permits("twisted.Lock", 1, frame_at(1))
            if permits.one is not None:
                permits.one._itc_identity.is_of_condition = False

    return __init__


def _begin_semaphore(original: Any) -> Any:
    def __init__(self: Any, tokens: int) -> None:
        original(self, tokens)
        if tokens <= MOST_PERMITS:
            self._itc_permits = Permits("twisted.Semaphore", tokens, frame_at(1))

    return __init__


def _free(one: Any) -> int:
    """How many permits are free. A lock has one."""
    own = one.__dict__
    return int(own["tokens"]) if "tokens" in own else int(not one.locked)


def _acquire(original: Any) -> Any:
    def acquire(self: Any) -> Any:
        permits = self.__dict__.get("_itc_permits")
        if permits is None or state.note is None:
            return original(self)
        here.given = _granted(permits) if _free(self) else None
        try:
            return original(self)
        finally:
            here.given = None

    return acquire


def _release(original: Any) -> Any:
    def release(self: Any) -> Any:
        permits = self.__dict__.get("_itc_permits")
        if permits is None or state.note is None:
            return original(self)
        free = _free(self)
        if free < self.__dict__.get("limit", 1):
            _give(permits, free)
            here.given = _granted(permits) if self.waiting else None
        try:
            return original(self)
        finally:
            here.given = None

    return release


def _granted(permits: Permits) -> Places:
    """What the Deferred comes from by which somebody gets a permit."""
    if permits.one is not None:
        return (Taken(partial(_take, permits.one), is_for_one=True),)
    place = permits.free.popleft() if permits.free else None
    return place if isinstance(place, tuple) else () if place is None else (place,)


def _take(permit: OnePermit) -> None:
    if state.note is not None:
        took(permit)


@guarded
def _give(permits: Permits, free: int) -> None:
    one = permits.one
    if one is not None and not one.is_held and not _is_taken_now(one):
        permits.free, permits.one, one = one.as_permits(free), None, None
    if one is None:
        permits.free.append(gives(SEMAPHORE))
        return
    holder, call = one._itc_holder, here.call
    is_handed_on = call is not None and call.is_open and any(_line_of(place) is holder for place in call.origin)
    if call is None or holder is None or not is_handed_on:
        gave(one)
        return
    # Twisted itself releases it, behind what the holder did with it.
    leave()
    local.line = holder
    try:
        for place in call.origin:
            if _line_of(place) is not holder:
                come_after((place,))
        gave(one)
    finally:
        leave()
        local.line = None


def _is_taken_now(permit: OnePermit) -> bool:
    """Whether Twisted itself releases what it has acquired for the program, which has done nothing in between."""
    call = here.call
    if call is None or not call.is_open or not any(isinstance(place, Taken) for place in call.origin):
        return False
    origin, call.origin, call.hands_on = call.origin, (), False
    come_after(origin)
    return permit.is_held


def _line_of(place: Place) -> Line | None:
    if isinstance(place, Token):
        return place.line
    return place.valid_line() if isinstance(place, Flow) else None


# Queues


def _items_of(queue: Any) -> deque[Places]:
    """Where each item was put that lies in a queue. What lay there before was put while nothing was traced."""
    items: deque[Places] = queue.__dict__.setdefault("_itc_items", deque())
    while len(items) < len(queue.pending):
        items.appendleft(())
    while len(items) > len(queue.pending):
        items.popleft()
    return items


def _put(original: Any) -> Any:
    """An item goes to who waits, or lies in the queue."""

    def put(self: Any, obj: Any) -> Any:
        if state.note is None:
            return original(self, obj)
        place, items = gives(QUEUE), None if self.waiting else _items_of(self)
        here.given = place if items is None else None
        try:
            told = original(self, obj)
        finally:
            here.given = None
        if items is not None:
            items.append(place)
        return told

    return put


def _get(original: Any) -> Any:
    def get(self: Any) -> Any:
        if state.note is None:
            return original(self)
        here.given = _items_of(self).popleft() if self.pending else None
        try:
            return original(self)
        finally:
            here.given = None

    return get
