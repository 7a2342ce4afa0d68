"""Traces what a reactor of Twisted calls: what it was asked for later, from another thread, at its start or its end.

As with the callbacks of asyncio, what the program asks for belongs to the line of the reactor's thread, after whoever
has asked for it. What a handler asks for first belongs to the flow of the handler.
"""

from __future__ import annotations

from _thread import get_ident
from types import ModuleType
from typing import Any

from ..model.frames import frame_at, place
from ..model.lines import CALL, EXIT, state
from ..model.loop_runs import BEGINS, LOOPS, RUNS, LoopRun, number_of_loop
from ..record.noting import current, mark
from . import chains
from .base import Patches, name_as
from .handed_on import called, handed_at
from .twisted_connections import flow_of_owner
from .twisted_flows import (
    Call, Flow, Places, asked_by, begin_next, calls_one_after_another, come_after, gives, guarded,
    here, is_asked_by_program, is_of_program, once_followed, stamp_now,
)


def put(patches: Patches) -> None:
    once_followed(patches, "twisted.internet.base", _put_base)
    once_followed(patches, "twisted.internet.asyncioreactor", _put_asyncio)


def _put_base(patches: Patches, module: ModuleType) -> None:
    names: Any = vars(module)
    timer, reactor = names["DelayedCall"], names["ReactorBase"]
    patches.wrap(timer, "__init__", _begin_timer)
    patches.put(timer, "called", property(_is_called, _set_called))
    patches.wrap(reactor, "__init__", _begin_reactor)
    patches.wrap(reactor, "runUntilCurrent", calls_one_after_another)
    patches.wrap(names["_ThreePhaseEvent"], "addTrigger", _add_trigger)
    mixin = names.get("_SignalReactorMixin", reactor)
    patches.wrap(mixin if "run" in vars(mixin) else reactor, "run", _run)


# Timers


class _Asked:
    """Where a function was asked for that the reactor calls, and what it belongs to."""

    __slots__ = ("place", "flow", "chain", "handed")

    def __init__(self, function: Any) -> None:
        self.place: Places = gives(CALL)
        self.flow: Flow | None = None
        self.chain: chains.Chain | None = None
        self.handed = handed_at(function, 2)
        if is_of_program(function):
            self.flow, self.chain = asked_by() if is_asked_by_program() else (None, None)
        else:
            self.flow = flow_of_owner(function)

    def begin(self, function: Any, words: Any) -> None:
        if self.chain is not None:
            self.chain.thread = get_ident()  # Another thread may have asked for it.
        begin_next(Call(self.flow, self.place, hands_on=not is_of_program(function), chain=self.chain))
        called(function, tuple(words), self.handed)


class _Placed:
    """A function on its way from a thread to the timer that calls it at once."""

    __slots__ = ("function", "asked")

    def __init__(self, function: Any) -> None:
        self.function = function
        self.asked = _Asked(function)

    def __call__(self, *words: Any, **named: Any) -> Any:
        return self.function(*words, **named)


def _begin_timer(original: Any) -> Any:
    def __init__(self: Any, time: Any, func: Any, *words: Any, **named: Any) -> None:
        placed = func if type(func) is _Placed else None
        original(self, time, func if placed is None else placed.function, *words, **named)
        if placed is not None:
            self.__dict__["_itc_asked"] = placed.asked
        elif state.note is not None:
            _know_asked(self, func)

    return __init__


@guarded
def _know_asked(timer: Any, function: Any) -> None:
    timer.__dict__["_itc_asked"] = _Asked(function)


def _is_called(self: Any) -> Any:
    return self.__dict__.get("called", 0)


def _set_called(self: Any, is_called: Any) -> None:
    """The reactor says so right before it calls the function."""
    self.__dict__["called"] = is_called
    if is_called and state.note is not None:
        _begin_called(self)


@guarded
def _begin_called(timer: Any) -> None:
    own = timer.__dict__
    asked = own.pop("_itc_asked", None)
    if asked is None:
        begin_next(Call(None, (), hands_on=not is_of_program(own["func"])))
    else:
        asked.begin(own["func"], own["args"])


# Calls from threads


class _CallsFromThreads(list[Any]):
    """The functions that threads have the reactor call, each with where it was asked for."""

    __slots__ = ()

    def append(self, item: Any) -> None:
        list.append(self, item if state.note is None else _from_thread(item) or item)


class _FromThread(tuple[Any, ...]):
    """A function with its words. The reactor takes them apart right before it calls the function."""

    asked: _Asked

    def __iter__(self) -> Any:
        if state.note is not None:
            _begin_from_thread(self)
        return tuple.__iter__(self)


for _made, _plain in ((_CallsFromThreads, list), (_FromThread, tuple)):
    name_as(_made, _plain.__name__, "builtins")


@guarded
def _from_thread(item: Any) -> Any:
    made = _FromThread(item)
    made.asked = _Asked(item[0])
    return made


@guarded
def _begin_from_thread(item: _FromThread) -> None:
    item.asked.begin(item[0], item[1])


def _begin_reactor(original: Any) -> Any:
    def __init__(self: Any, *words: Any, **named: Any) -> None:
        original(self, *words, **named)
        if type(self.threadCallQueue) is list:
            self.threadCallQueue = _CallsFromThreads(self.threadCallQueue)

    return __init__


# What is called as the reactor begins and ends


class _Trigger(tuple[Any, ...]):
    """What is called at the beginning or at the end, and where it was asked for."""

    place: Places = ()

    def __iter__(self) -> Any:
        _take_place(self.place)
        return tuple.__iter__(self)


name_as(_Trigger, "tuple", "builtins")
_take_place = guarded(come_after)


def _add_trigger(original: Any) -> Any:
    def addTrigger(self: Any, phase: Any, *words: Any, **named: Any) -> Any:
        handle = original(self, phase, *words, **named)
        if state.note is not None:
            listed = getattr(self, phase)
            made = listed[-1] = _Trigger(listed[-1])
            made.place = gives(EXIT)
        return handle

    return addTrigger


# Runs


def _run(original: Any) -> Any:
    """Behind the run the thread goes on after all that was done in it."""

    def run(self: Any, *words: Any, **named: Any) -> Any:
        thread, token = get_ident(), mark(BEGINS)
        made = None
        if token is not None and thread not in RUNS:
            here.know_thread(thread)
            here.began = stamp_now()
            made = RUNS[thread] = LoopRun(token)
        try:
            return original(self, *words, **named)
        finally:
            if made is not None:
                RUNS.pop(thread, None)
                if state.note is not None:
                    made.leave(current(), place(frame_at(1)))

    return run


# The reactor of asyncio


def _put_asyncio(patches: Patches, module: ModuleType) -> None:
    reactor: Any = vars(module)["AsyncioSelectorReactor"]
    patches.wrap(reactor, "__init__", _begin_asyncio)
    patches.wrap(reactor, "callFromThread", _call_from_thread)
    patches.wrap(reactor, "run", _run_in_asyncio)


def _begin_asyncio(original: Any) -> Any:
    """Its loop and what Twisted runs in the thread are one."""

    def __init__(self: Any, *words: Any, **named: Any) -> None:
        original(self, *words, **named)
        LOOPS[get_ident()] = number_of_loop(self._asyncioEventloop)

    return __init__


def _run_in_asyncio(original: Any) -> Any:
    """The loop has a run by itself."""

    def run(self: Any, *words: Any, **named: Any) -> Any:
        here.began = stamp_now()
        return original(self, *words, **named)

    return run


def _call_from_thread(original: Any) -> Any:
    def callFromThread(self: Any, f: Any, *args: Any, **kwargs: Any) -> Any:
        if state.note is None or not callable(f):
            return original(self, f, *args, **kwargs)
        return original(self, _Placed(f), *args, **kwargs)

    return callFromThread
