"""What runs in a thread of Twisted's, as flows: what Twisted calls one after another is a task of its own.

A flow is a coroutine, the callbacks of a Deferred, the handlers of a connection, or the calls of a `LoopingCall`. What
else the reactor calls belongs to the line of its thread. A call of Twisted's own functions that does nothing by itself
needs no line: whatever it starts or fires comes from where the call itself comes from.
"""

from __future__ import annotations

import functools
import itertools
import sys
import types
import weakref
from _thread import get_ident
from collections.abc import Callable
from threading import local as thread_local
from typing import Any

from ..model.frames import INTERNAL, frame_at, is_internal, place
from ..model.lines import SPAWN, TAKE_END, Line, Token, What, state
from ..model.loop_runs import LOOPS, begun_here, number_of_loop, take_step
from ..model.stretches import TURN_NUMBERS, TURNS, leave
from ..record.noting import (
    REPLACING, Replacing, come_back, failed, joining, leave_task, line_of_now, local, mark, starting, take_at, task_now,
)
from . import chains
from .base import Patches
from .greenlets import Base
from .later import once_imported
from .thread_jobs import Job

LIBRARY = "twisted.internet"
OWN = __name__.partition(".")[0]
WAKE = What("wake", "wake up", "woken")
STEP = What("step", "wait", "go on behind")
_NOT_OF_PROGRAM = INTERNAL | {"twisted"}
MOST_PLACES = 64
"""A call that hands on more places than these has a line, behind all of them."""
MOST_WRAPPED = 8
UNKNOWN: list[str] = []
"""The modules of a Twisted that has not what is replaced, or not as it is replaced."""
_stamps = itertools.count(1)


class Flow:
    """What is called one after another. Whoever has it as a place comes after its end."""

    __slots__ = ("name", "line", "starter", "started", "returned", "steps", "_chain", "__weakref__")

    def __init__(self, name: str) -> None:
        self.name = name
        self.line: Line | None = None
        self.starter: weakref.ref[Flow] | None = None
        """Who started it, at the stamp `started`, and went on at `returned`."""
        self.started = 0
        self.returned = 0
        self.steps = 0
        self._chain: weakref.ref[chains.Chain] | None = None

    def valid_line(self) -> Line | None:
        line = self.line
        return line if line is not None and line.tracer is state.tracer else None

    def chain(self) -> chains.Chain:
        """What is asked for in the flow and called in another one goes on in this chain."""
        known = None if self._chain is None else self._chain()
        if known is None:
            known = chains.Chain(get_ident())
            self._chain = weakref.ref(known)
        return known

    def was_surely_at(self, owner: Flow | None, stamp: int) -> bool:
        """Whether the other flow had come to the stamp before this one goes on now, by who started whom."""
        one: Flow | None = self
        bound: int | None = None
        while one is not None:
            if one is owner:
                return bound is None or stamp <= bound
            bound, one = one.started, None if one.starter is None else one.starter()
        return False


class Taken:
    """A place that is taken by a function, perhaps by one alone."""

    __slots__ = ("_take", "_is_for_one")

    def __init__(self, take: Callable[[], object], is_for_one: bool = False) -> None:
        self._take: Callable[[], object] | None = take
        self._is_for_one = is_for_one

    def take(self) -> None:
        take = self._take
        if self._is_for_one:
            self._take = None
        if take is not None:
            take()


Place = Token | Flow | Job | Taken
"""What others come after: a place of a task, the end of a flow or of a job in a thread, or what is taken otherwise."""
Places = tuple[Place, ...]


class Call:
    """A call by the reactor, by a Deferred or of a coroutine: its flow, if it has one, and what it comes after."""

    __slots__ = (
        "flow", "origin", "hands_on", "has_asked", "status", "woken", "is_wake", "chain", "_outer",
        "_line", "_turn", "_task", "_chain_before",
    )

    def __init__(
        self, flow: Flow | None, origin: Places, hands_on: bool, chain: chains.Chain | None = None,
    ) -> None:
        self.flow = flow
        self.origin = origin
        self.hands_on = hands_on
        """Whether functions of Twisted are called. What the program does has a line."""
        self.has_asked = False
        """Whether a callback was asked for that belongs to this flow."""
        self.status: Any = None
        """Of a coroutine: what Twisted knows of it."""
        self.woken: tuple[Flow, Places] | None = None
        """The coroutine that was woken by this call in its first wait, and where it waits again."""
        self.is_wake = False
        self.chain = chain
        self._outer: Call | None = None
        self._line: Line | None = None
        self._turn: int | None = None
        self._task: Any = None
        self._chain_before: chains.Chain | None = None

    def begin(self) -> None:
        """From here on this thread does what is called."""
        thread = get_ident()
        here.know_thread(thread)
        self._outer, self._line, self._turn = here.call, getattr(local, "line", None), TURNS.get(thread)
        if self._outer is None:
            here.line = self._line
        self._task = leave_task()
        here.call = self
        leave()
        local.line = None
        TURNS[thread] = next(TURN_NUMBERS)
        if self.chain is not None:
            self._chain_before = chains.begin(self.chain)

    def end(self) -> None:
        """The thread goes on with what it did before. To whatever else runs in it, that was one step."""
        if self.chain is not None:
            chains.end(self._chain_before)
        here.call = self._outer
        leave()
        local.line = self._line
        come_back(self._task)
        if self._turn is None:
            TURNS.pop(get_ident(), None)
        else:
            TURNS[get_ident()] = self._turn

    @property
    def is_open(self) -> bool:
        """Whether it hands on where it comes from, as nothing of its flow has a line yet."""
        flow = self.flow
        return self.hands_on and _has_no_line() and (flow is None or flow.valid_line() is None)


class _OfThread:
    """Forgets what is known of a thread as it ends. Another one may get its identity."""

    __slots__ = ("_thread", "_known")

    def __init__(self, thread: int) -> None:
        self._thread = thread
        self._known = LOOPS, TURNS  # At the end of the process the module has them no more.

    def __del__(self) -> None:
        for known in self._known:
            known.pop(self._thread, None)


class Here(thread_local):
    """What runs in this thread."""

    def __init__(self) -> None:
        self.call: Call | None = None
        self.line: Line | None = None
        """That of the thread itself, while something is called."""
        self.flow = Flow("thread")
        """What the thread itself does."""
        self.base = Base("reactor")
        """Whose children the flows are that nobody is seen to start."""
        self.began = 0
        """When the last run of its reactor began."""
        self.given: Places | None = None
        """What the Deferred comes from that is fired next, if that is not where it is fired."""
        self.giving: Places | None = None
        """What all comes from that a thread of a pool hands on."""
        self.limit: tuple[Call | None] | None = None
        """The call within which the reactor calls one function after another."""
        self._of_thread: _OfThread | None = None

    def know_thread(self, thread: int) -> None:
        """All that Twisted runs in a thread takes turns, as the tasks of a loop do."""
        if thread not in LOOPS:
            LOOPS[thread] = number_of_loop(self.flow)
            self._of_thread = _OfThread(thread)
        if self.base.line is None or self.base.line.tracer is not state.tracer:
            self.begin_base()

    def begin_base(self) -> None:
        """The base comes after what the thread did by now. From its beginning on all is noted."""
        note = state.note
        if note is not None:
            line = self.base.begin()
            note((SPAWN, starting(line), line, None, 0))


here = Here()


def stamp_now() -> int:
    """What tells which of two moments of this process was first."""
    return next(_stamps)


def flow_now() -> Flow:
    """What runs now. A task of asyncio is no flow, and is told apart from all of them."""
    call = here.call
    if call is not None and call.flow is not None:
        return call.flow
    return here.flow if task_now() is None else Flow("task")


def is_surely_behind(owner: Flow | None, stamp: int) -> bool:
    """Whether what runs now comes after that moment of a flow, whatever the reactor calls first."""
    is_before_run = owner is here.flow and here.call is not None and stamp <= here.began
    return is_before_run or flow_now().was_surely_at(owner, stamp)


def put(patches: Patches) -> None:
    once_followed(patches, LIBRARY, lambda *_: REPLACING.append(Replacing(LIBRARY, _line_of_call, _who)))


def _who() -> int | None:
    call = here.call
    return None if call is None or call.flow is None else id(call.flow)


def _has_no_line() -> bool:
    line = getattr(local, "line", None)
    return line is None or line.tracer is not state.tracer


def _line_of_call() -> Line | None:
    """The line of what is called now, which has noted nothing yet. None if that is the thread's own, and unknown."""
    call = here.call
    if call is None:
        return None
    line = here.line if call.flow is None else call.flow.valid_line() or _line_for(call.flow)
    if line is None or line.tracer is not state.tracer:
        return None
    local.line = line
    if call.flow is not None:
        take_step(line)
    origin, call.origin = call.origin, ()
    come_after(origin)
    return line


def _line_for(flow: Flow) -> Line:
    """The line of a flow that nobody is seen to start."""
    line = flow.line = Line(state.tracer, flow.name)
    line.watch(flow)
    here.base.start(line)
    return line


# What comes after what


def gives(what: What) -> Places:
    """The place of whoever gives something now."""
    if state.note is None:
        return ()
    if here.giving is not None:
        return here.giving
    call = here.call
    if call is not None and call.is_open:
        return call.origin
    token = mark(what, 3)
    return () if token is None else (token,)


def come_after(places: Places) -> None:
    """From now on whatever runs now comes after these places."""
    call = here.call
    if not places or state.note is None:
        return
    if call is not None and call.is_open:
        call.origin = merged(call.origin, places)
        if len(call.origin) > MOST_PLACES:
            line_of_now()
        return
    for one in places:
        _come_after(one)


def merged(one: Places, other: Places) -> Places:
    if not other or one == other:
        return one
    return tuple({id(place): place for place in (*one, *other)}.values()) if one else other


def _come_after(one: Place) -> None:
    note = state.note
    if isinstance(one, Token):
        take_at(one, frame_at(1))
    elif isinstance(one, Job):
        one.was_awaited()
    elif isinstance(one, Taken):
        one.take()
    else:
        line = one.valid_line()
        if note is not None and line is not None and line_of_now() is not line:
            note((TAKE_END, joining(line), line, *place(frame_at(1))))


def starts(flow: Flow) -> Places:
    """The flow is about to be started. Gives what it comes after, if that is not what runs now."""
    note, call = state.note, here.call
    line = flow.line = Line(state.tracer, flow.name)
    line.watch(flow)
    here.know_thread(get_ident())
    if call is not None and call.is_open:
        here.base.start(line)
        return call.origin
    starter = starting(line)
    flow.starter, flow.started = weakref.ref(flow_now()), stamp_now()
    if note is not None:
        note((SPAWN, starter, line, *place(frame_at(2))))
    begun_here(line)
    return ()


def goes_on_behind(flow: Flow, places: Places, is_over: bool) -> None:
    """Whoever has started the flow goes on behind its first step, which was taken at once.

    What a reactor calls next comes after that by luck. So the rest of this call has a line of its own, unless it is in
    a flow anyway.
    """
    call = here.call
    flow.returned = stamp_now()
    if call is None or call.flow is not None or call.is_open or is_over:
        come_after(places)
        return
    call.origin = merged(gives(STEP), places)
    rest = call.flow = Flow("rest#")
    rest.starter, rest.started = weakref.ref(here.flow), flow.returned
    leave()
    local.line = None


# Calls of one reactor, one after another


def calls_one_after_another(original: Any) -> Any:
    """What a reactor calls in here ends where the next one begins, and at the end."""

    def run(self: Any, *words: Any, **named: Any) -> Any:
        if state.note is None:
            return original(self, *words, **named)
        before, here.limit = here.limit, (here.call,)
        try:
            return original(self, *words, **named)
        finally:
            end_calls()
            here.limit = before

    return run


def begin_next(call: Call) -> None:
    """The reactor is about to call this. Outside of what calls one after another, it is part of what runs now."""
    if here.limit is None:
        come_after(call.origin)
    else:
        end_calls()
        call.begin()


def end_calls() -> None:
    while here.limit is not None and here.call is not None and here.call is not here.limit[0]:
        here.call.end()


# Functions of the program


def _inner(function: Any) -> Any:
    for _ in range(MOST_WRAPPED):
        if type(function) is functools.partial:
            function = function.func
        elif type(function) is types.MethodType:
            function = function.__func__
        else:
            break
    return function


def name_of(function: Any) -> str:
    inner = _inner(function)
    return str(inner.__name__) if type(inner) is types.FunctionType else type(inner).__name__


def is_of_program(function: Any) -> bool:
    """Whether it is no function of Twisted or of the library."""
    function = _inner(function)
    if type(function) is types.FunctionType:
        module = function.__globals__.get("__name__")
    elif type(function) is types.BuiltinFunctionType:
        return True
    else:
        module = (function if issubclass(type(function), type) else type(function)).__module__
    return not isinstance(module, str) or module.partition(".")[0] not in _NOT_OF_PROGRAM


def asked_by() -> tuple[Flow | None, chains.Chain | None]:
    """Whose flow a function of the program belongs to that is asked for now: that of the handler which asks for it.

    Of several that one call asks for this holds of the first. Those that coroutines ask for have flows of their own, as
    these go on beside them. They are in the chain of who asks, by which two at once are seen.
    """
    call = here.call
    flow = None if call is None else call.flow
    if call is not None and flow is not None and call.status is None and not call.has_asked:
        call.has_asked = True
        return flow, None
    where = place(frame_at(1))
    if flow is None:
        return None, chains.asked_for(*where)
    before = chains.begin(flow.chain())
    try:
        return None, chains.asked_for(*where)
    finally:
        chains.end(before)


_ASKING = frozenset(("addCallbacks", "addCallback", "addErrback", "addBoth", "callLater", "callFromThread", "__init__"))
"""Functions of Twisted by which the program asks for a callback."""


def is_asked_by_program() -> bool:
    """Whether the program itself asks for a callback now, and no function of Twisted."""
    frame = frame_at(1)
    while frame is not None and is_internal(frame):
        of_package = frame.f_globals.get("__name__", "").startswith(OWN)
        if not of_package and frame.f_code.co_name not in _ASKING:
            return False
        frame = frame.f_back
    return frame is not None


def guarded(function: Callable[..., Any]) -> Callable[..., Any]:
    """A fault of the package ends tracing, and never reaches the program."""

    @functools.wraps(function)
    def call(*words: Any) -> Any:
        try:
            return function(*words)
        except Exception as fault:
            failed(fault)
            return None

    return call


def once_followed(patches: Patches, name: str, make: Callable[[Patches, types.ModuleType], None]) -> None:
    """Puts patches in place of a module once it is imported. If it is not as it is known here, the program runs on.

    A Twisted that is there already has a reactor of its own, and is not followed.
    """

    def put_all(module: types.ModuleType) -> None:
        try:
            make(patches, module)
        except (AttributeError, KeyError, TypeError):
            UNKNOWN.append(module.__name__)

    if LIBRARY not in sys.modules:
        once_imported(name, put_all)
