"""Traces the coroutines of Twisted: each call of what `inlineCallbacks` gives is a task, and so is a coroutine.

The first step is taken at once, by whoever calls. A later one is taken as the Deferred is fired that it waits for, and
whoever has fired that goes on behind it.
"""

from __future__ import annotations

from types import ModuleType
from typing import Any

from ..model.lines import state
from ..record.noting import line_of_now
from .base import Patches
from .by_identity import ByIdentity
from .twisted_flows import STEP, WAKE, Call, Flow, Places, gives, goes_on_behind, guarded, here, starts, once_followed

_flows: ByIdentity[Flow] = ByIdentity()
"""The flow of each coroutine that lives."""


def put(patches: Patches) -> None:
    once_followed(patches, "twisted.internet.defer", _put_all)


def _put_all(patches: Patches, module: ModuleType) -> None:
    patches.wrap(module, "_inlineCallbacks", _take_steps)


def _take_steps(original: Any) -> Any:
    def _inlineCallbacks(result: Any, gen: Any, status: Any, *more: Any) -> Any:
        if state.note is None:
            return original(result, gen, status, *more)
        step = _Step()
        step.begin(gen, status)
        try:
            return original(result, gen, status, *more)
        finally:
            step.end(gen)
            del result, gen, status, more, step

    return _inlineCallbacks


class _Step:
    """What a coroutine does from one wait to the next one."""

    __slots__ = ("_flow", "_call", "_is_first", "_has_waited_once")

    def __init__(self) -> None:
        self._flow: Flow | None = None
        self._call: Call | None = None
        self._is_first = False
        self._has_waited_once = False

    @guarded
    def begin(self, gen: Any, status: Any) -> None:
        known = _flows.get(gen)
        flow = known
        if flow is None:
            flow = Flow(f"{getattr(gen, '__name__', 'coroutine')}#")
            _flows.put(gen, flow)
        if known is None:
            origin = starts(flow)
        else:
            origin = gives(WAKE)
        self._flow = flow
        self._is_first, self._has_waited_once = flow.steps == 0, flow.steps == 1
        flow.steps += 1
        call = Call(flow, origin, hands_on=False)
        call.status = status
        call.begin()
        self._call = call
        line_of_now()

    @guarded
    def end(self, gen: Any) -> None:
        call, flow = self._call, self._flow
        if call is None or flow is None:
            return
        is_over = _is_over(gen)
        places: Places = (flow,)
        if not is_over:
            places = gives(STEP) if self._is_first or self._has_waited_once else ()
        call.end()
        if self._is_first:
            goes_on_behind(flow, places, is_over)
        elif self._has_waited_once and here.call is not None and here.call.is_wake:
            here.call.woken = flow, places


def _is_over(gen: Any) -> bool:
    frame: Any = gen.gi_frame if hasattr(gen, "gi_frame") else getattr(gen, "cr_frame", None)
    return frame is None
