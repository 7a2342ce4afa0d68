"""Traces what Twisted calls again and again: a `LoopingCall`, and the steps of a task that cooperates."""

from __future__ import annotations

from types import ModuleType
from typing import Any

from ..model.lines import CALLED, state
from .base import Patches
from .twisted_flows import (
    WAKE, Call, Flow, Places, calls_one_after_another, come_after, gives, goes_on_behind, here, merged, name_of,
    once_followed, starts,
)


def put(patches: Patches) -> None:
    once_followed(patches, "twisted.internet.task", _put_all)


def _put_all(patches: Patches, module: ModuleType) -> None:
    names: Any = vars(module)
    loop, task = names["LoopingCall"], names["CooperativeTask"]
    patches.wrap(loop, "start", _start_loop)
    patches.wrap(loop, "__call__", _repeat)
    patches.wrap(loop, "stop", _stop_loop)
    patches.wrap(task, "__init__", _begin_task)
    patches.wrap(task, "_oneWorkUnit", _repeat)
    patches.wrap(task, "resume", _resume)
    patches.wrap(task, "whenDone", _when_done)
    patches.wrap(names["Clock"], "advance", calls_one_after_another)


class _Repeated:
    """The flow of what is called again and again, and where its last call has ended."""

    __slots__ = ("flow", "origin", "last", "has_own_timer")

    def __init__(self, function: Any, has_own_timer: bool) -> None:
        self.has_own_timer = has_own_timer
        """Whether the timer that calls it was asked for by itself. Else it calls others, too."""
        self.flow = Flow(f"{name_of(function)}#")
        self.origin = starts(self.flow)
        self.last: Places = ()


def _repeat(original: Any) -> Any:
    """One call comes after the other."""

    def repeat(self: Any) -> Any:
        known = self.__dict__.get("_itc_repeated")
        if known is None or state.note is None:
            return original(self)
        woken = gives(WAKE) if known.has_own_timer else ()
        call = Call(known.flow, merged(known.origin, woken), hands_on=False)
        known.origin = ()
        call.begin()
        try:
            return original(self)
        finally:
            known.last = gives(CALLED)
            call.end()

    return repeat


def _start_loop(original: Any) -> Any:
    def start(self: Any, interval: Any, now: Any = True) -> Any:
        if state.note is None or self.running:
            return original(self, interval, now)
        known = self.__dict__["_itc_repeated"] = _Repeated(self.f, has_own_timer=True)
        told = original(self, interval, now)
        if now:
            goes_on_behind(known.flow, known.last, is_over=False)
        return told

    return start


def _stop_loop(original: Any) -> Any:
    """Whoever stops it comes after all its calls, if none is under way."""

    def stop(self: Any) -> Any:
        known = self.__dict__.get("_itc_repeated")
        if known is not None and state.note is not None and self.running and self.call is not None:
            come_after(known.last)
        return original(self)

    return stop


def _begin_task(original: Any) -> Any:
    def __init__(self: Any, iterator: Any, *words: Any) -> None:
        if state.note is not None:
            self.__dict__["_itc_repeated"] = _Repeated(iterator, has_own_timer=False)
        original(self, iterator, *words)

    return __init__


def _resume(original: Any) -> Any:
    def resume(self: Any) -> Any:
        known = self.__dict__.get("_itc_repeated")
        if known is not None and state.note is not None:
            known.origin = merged(known.origin, gives(WAKE))
        return original(self)

    return resume


def _when_done(original: Any) -> Any:
    """Whoever asks once it is done comes after its last step."""

    def whenDone(self: Any) -> Any:
        known = self.__dict__.get("_itc_repeated")
        if known is None or state.note is None or self._completionState is None:
            return original(self)
        here.given = known.last
        try:
            return original(self)
        finally:
            here.given = None

    return whenDone
