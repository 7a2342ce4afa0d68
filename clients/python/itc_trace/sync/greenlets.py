"""Traces the greenlets of a hub, as `gevent` has one in each thread: each greenlet is a task of its own.

The library of greenlets tells of each switch. A hub is no task that orders others: whoever is switched to by a callback
of the hub comes after whoever had that called. A switch that no hub does is an order by itself.
"""

from __future__ import annotations

import itertools
from _thread import get_ident
from collections.abc import Callable
from types import ModuleType
from typing import Any

from ..model.frames import frame_at, place
from ..model.lines import FINISH, MARK, SPAWN, TAKE_END, Line, Token, What, state
from ..model.loop_runs import LOOPS, number_of_loop
from ..model.stretches import TURNS, leave
from ..record.noting import (
    REPLACING, Replacing, failed, joining, local, mark, starting, take_at, without_own_frame,
)
from .base import Patches
from .by_identity import ByIdentity
from .later import once_imported
from .thread_jobs import Job

WAKE = What("switch", "switch to another greenlet", "is switched to")
HUB, BASE = "hub", "greenlets"
Place = Token | Line | Job | None
"""What others come after: a place of a task, the end of a greenlet, or of a job in a thread."""
_turns = itertools.count(1)


class Known:
    """What is known of a greenlet: its line, and the places that it comes after once it goes on."""

    __slots__ = ("line", "wakes", "is_hub", "waking", "is_of_thread", "has_begun", "is_over", "name")

    def __init__(self, name: str, is_hub: bool = False) -> None:
        self.name = name
        self.line: Line | None = None
        self.wakes: list[Place] = []
        self.is_hub = is_hub
        self.waking: Place = None
        """Of a hub: where its present callback comes from."""
        self.is_of_thread = False
        """Whether a thread of the program is this greenlet, as it is where `gevent` stands in for threads."""
        self.has_begun = False
        self.is_over = False

    def valid_line(self) -> Line | None:
        line = self.line
        return line if line is not None and line.tracer is state.tracer else None


class Base:
    """A task that only starts others. It knows nothing, and nor do they, but for what they are seen to come after."""

    __slots__ = ("line", "_name")

    def __init__(self, name: str = BASE) -> None:
        self.line: Line | None = None
        self._name = name

    def begin(self) -> Line:
        """Its line, which a task begins that is there already."""
        if self.line is None or self.line.tracer is not state.tracer:
            self.line = Line(state.tracer, self._name)
        return self.line

    def start(self, line: Line) -> None:
        tracer, note, known = state.tracer, state.note, self.line
        own = self.begin()
        if note is None or tracer is None:
            return
        if own is not known:
            note((SPAWN, tracer.parent_of_strangers, own, None, 0))
        note((SPAWN, own, line, None, 0))


_known: ByIdentity[Known] = ByIdentity()
_modules: list[Any] = []
"""The module `greenlet`, once it is there."""
_bases: dict[int, Base] = {}
"""Of each thread with a hub: whose children its greenlets are that nobody is seen to start."""
_tracers: dict[int, Callable[..., object]] = {}
"""The function that the program has given to `greenlet.settrace`, in each thread with a hub."""
_plain: dict[str, Any] = {}


def put(patches: Patches) -> None:
    once_imported("greenlet", lambda module: _put_all(patches, module))


def _put_all(patches: Patches, module: ModuleType) -> None:
    _modules.append(module)
    for name, make in (("settrace", _settrace), ("gettrace", _gettrace)):
        _plain[name] = vars(module)[name]
        patches.wrap(module, name, make)


# Who runs now


def greenlet_now() -> Any:
    return _modules[0].getcurrent()


def known_of(greenlet: Any) -> Known:
    known = _known.get(greenlet)
    if known is None:
        known = Known("greenlet#")
        _known.put(greenlet, known)
    return known


def known_now() -> Known:
    return known_of(greenlet_now())


def is_known(greenlet: Any) -> Known | None:
    return _known.get(greenlet)


def _line_of_greenlet() -> Line | None:
    """The line of the greenlet that runs now, which has none yet. None if it is the main one of a thread."""
    greenlet = greenlet_now()
    base = _bases.get(get_ident())
    known = None if base is None else _known.get(greenlet)
    if base is None or known is None or greenlet.parent is None or known.is_of_thread:
        return None
    line = known.valid_line()
    if line is None:
        line = known.line = Line(state.tracer, known.name)
        line.watch(greenlet)
        base.start(line)
    local.line = line
    if known.is_hub:
        come_after(known.waking)
    _take_wakes(known)
    return line


def _who() -> int | None:
    return id(greenlet_now()) if get_ident() in _bases else None


def follow(library: str) -> None:
    """From now on tasks of this library are greenlets that are followed."""
    REPLACING.append(Replacing(library, _line_of_greenlet, _who))


def has_hub(hub: Any) -> None:
    """This thread has a hub, which runs its greenlets by turns."""
    thread, note = get_ident(), state.note
    _known.put(hub, Known(HUB, is_hub=True))
    LOOPS[thread] = number_of_loop(hub)
    if getattr(local, "has_hub", None) is not None:
        return
    local.has_hub = _OfThread(thread)
    base = _bases[thread] = Base()
    if note is not None:
        line = base.begin()
        note((SPAWN, starting(line), line, *place(frame_at(2))))
    before = _plain["settrace"](_switched)
    if before is not None and before is not _switched:
        _tracers[thread] = before


class _OfThread:
    """Forgets what is known of a thread with a hub as it ends. Another one may get its identity."""

    __slots__ = ("_thread",)

    def __init__(self, thread: int) -> None:
        self._thread = thread

    def __del__(self) -> None:
        thread = self._thread
        _bases.pop(thread, None), _tracers.pop(thread, None), LOOPS.pop(thread, None), TURNS.pop(thread, None)


# Switches


def _switched(event: str, words: tuple[Any, Any]) -> None:
    """This thread goes on with another greenlet."""
    if state.note is not None:
        try:
            _note_switch(*words)
        except Exception as fault:
            failed(fault)
    tracer = _tracers.get(get_ident()) if _tracers else None
    if tracer is not None:
        try:
            tracer(event, words)
        except BaseException as fault:
            _tracers.pop(get_ident(), None)
            without_own_frame(fault)
            raise


def _note_switch(origin: Any, target: Any) -> None:
    leave()
    TURNS[get_ident()] = next(_turns)
    before, after = known_of(origin), known_of(target)
    if not before.is_hub:
        before.line = getattr(local, "line", None)
    wakes = _wakes_of(before, origin, after)
    if not before.is_hub and _modules[0].greenlet.dead.__get__(origin):
        has_ended(before)
    after.has_begun = True
    after.wakes.extend(wakes)
    local.line = None if after.is_hub else after.line
    if after.valid_line() is not None and not after.is_hub:
        _take_wakes(after, 3)


def _wakes_of(before: Known, origin: Any, after: Known) -> list[Place]:
    """What the greenlet comes after that is switched to."""
    if after.is_hub:
        return []
    if before.is_hub:
        return [] if before.waking is None else [before.waking]
    line, note = before.valid_line(), state.note
    if line is None or note is None:  # It has noted nothing. So it is in order with what woke it, and no more.
        return list(before.wakes)
    line.section = None
    token = Token(line, WAKE, *place(origin.gr_frame))
    note((MARK, token))
    return [token]


def _take_wakes(known: Known, depth: int = 2) -> None:
    wakes, known.wakes = known.wakes, []
    for one in wakes:
        come_after(one, depth + 1)


def has_ended(known: Known) -> None:
    """Nothing more comes of the greenlet."""
    line, note = known.valid_line(), state.note
    if known.is_over:
        return
    known.is_over = True
    if line is not None and note is not None and not known.is_of_thread:
        line.section = None
        note((FINISH, line, False))


def come_after(one: Place, depth: int = 1) -> None:
    """From now on the greenlet that runs comes after this place."""
    note = state.note
    if one is None or note is None:
        return
    if isinstance(one, Token):
        take_at(one, frame_at(depth))
    elif isinstance(one, Job):
        one.was_awaited()
    elif one.tracer is state.tracer and getattr(local, "line", None) is not one:
        note((TAKE_END, joining(one), one, *place(frame_at(depth))))


# What a hub calls


class FromHub:
    """What a hub calls: as long as it does, the hub stands for whoever had it called."""

    __slots__ = ("_function", "_from", "_known")

    def __init__(self, function: Any, comes_from: Callable[[], Place]) -> None:
        self._function = function
        self._from = comes_from
        self._known = None

    def __call__(self, *words: Any) -> Any:
        known = known_now()
        if state.note is None or not known.is_hub:
            return self._function(*words)
        before, known.waking = known.waking, self._from()
        leave()
        local.line = None
        try:
            return self._function(*words)
        except BaseException as fault:
            without_own_frame(fault)
            raise
        finally:
            known.waking = before
            leave()
            local.line = None


def gives(what: What) -> Place:
    """The place of whoever gives something now. A hub that has done nothing passes on where it was called from."""
    if state.note is None:
        return None
    known = is_known(greenlet_now()) if get_ident() in _bases else None
    if known is not None and known.is_hub and known.waking is not None and getattr(local, "line", None) is None:
        return known.waking
    return mark(what, 3)


# Tasks


def begins(greenlet: Any, name: str, line: Line | None = None) -> Known:
    """The greenlet is about to be started by the current task. A thread of the program has a line already."""
    known = Known(name)
    _known.put(greenlet, known)
    note = state.note
    if line is not None:
        known.line, known.is_of_thread = line, True
    elif note is not None:
        known.line = line = Line(state.tracer, name)
        line.watch(greenlet)
        note((SPAWN, starting(line), line, *place(frame_at(2))))
    return known


# The program's own tracer of greenlets


def _settrace(original: Any) -> Any:
    def settrace(callback: Any, /) -> Any:
        thread = get_ident()
        if thread not in _bases:
            return original(callback)
        before = _tracers.pop(thread, None)
        if callback is not None:
            _tracers[thread] = callback
        return before

    return settrace


def _gettrace(original: Any) -> Any:
    def gettrace() -> Any:
        thread = get_ident()
        return _tracers.get(thread) if thread in _bases else original()

    return gettrace
