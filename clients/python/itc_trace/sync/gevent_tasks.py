"""Traces `gevent`: its greenlets are tasks, and whoever waits for one comes after its end."""

from __future__ import annotations

import sys
import threading
from collections.abc import Callable
from functools import partial
from types import ModuleType
from typing import Any

from ..model.frames import frame_at, is_internal, place
from ..model.lines import CALL, Line, state
from .base import Patches, like, name_as
from .greenlets import (
    FromHub, Place, begins, come_after, follow, gives, has_ended, has_hub, is_known,
)
from .handed_on import called, handed_at
from .jobs_of_pools import jobs_of
from .later import once_imported
from .thread_jobs import Job, named_job

LIBRARY = "gevent"
_loops: dict[type, type] = {}
"""The traced class of each class of loops."""
_greenlet: list[Any] = []
"""The class of greenlets, once it is there."""
UNKNOWN: list[str] = []
"""The modules of a `gevent` that has not what is replaced, or not as it is replaced."""


def put(patches: Patches) -> None:
    """A `gevent` that is there already has made classes of its own, and is not followed."""
    if LIBRARY in sys.modules:
        return
    for name, make in (
        ("gevent.hub", _put_hub), ("gevent._hub_primitives", _put_waiting), ("gevent.greenlet", _put_greenlets),
        ("gevent._imap", _put_maps), ("gevent.pool", _put_groups), ("gevent.threadpool", _put_threads),
    ):
        once_imported(name, with_patches(patches, make))


def with_patches(
    patches: Patches, make: Callable[[Patches, ModuleType], None],
) -> Callable[[ModuleType], None]:
    """What puts patches in place of a module. If it is not as it is known here, the program runs on."""

    def put_all(module: ModuleType) -> None:
        try:
            make(patches, module)
        except (AttributeError, KeyError, TypeError):
            UNKNOWN.append(module.__name__)

    return put_all


# The hub, and what it calls


def _put_hub(patches: Patches, module: ModuleType) -> None:
    hub: Any = vars(module)["Hub"]
    patches.wrap(hub, "__init__", _begin_hub)
    plain = vars(hub)["loop_class"]
    patches.put(hub, "loop_class", property(lambda self: _traced_loop(plain.fget(self)), doc=plain.__doc__))
    follow(LIBRARY)


def _begin_hub(original: Any) -> Any:
    def __init__(self: Any, *words: Any, **named: Any) -> None:
        original(self, *words, **named)
        has_hub(self)

    return __init__


def _traced_loop(kind: Any) -> Any:
    traced = _loops.get(kind)
    if traced is None:

        class Loop(kind):  # type: ignore[misc]
            def run_callback(self, func: Any, *args: Any) -> Any:
                return kind.run_callback(self, _from_here(func), *args)

            def run_callback_threadsafe(self, func: Any, *args: Any) -> Any:
                return kind.run_callback_threadsafe(self, _from_here(func), *args)

        be_named(Loop, kind)
        traced = _loops[kind] = Loop
    return traced


def be_named(made: Any, kind: Any) -> None:
    """The class looks like the one that it stands for."""
    name_as(made, kind.__name__, kind.__module__)
    for name, method in vars(made).items():
        found = getattr(kind, name, None)
        if callable(method) and getattr(found, "__doc__", None):
            method.__doc__ = found.__doc__
    made.__doc__ = kind.__doc__


def _from_here(function: Any) -> Any:
    if state.note is None or not callable(function):
        return function
    owner, name = getattr(function, "__self__", None), getattr(function, "__name__", "")
    if name == "switch" and _greenlet and isinstance(owner, _greenlet[0]) and _is_at_start(owner):
        return function
    if name == "_notify_links":
        return FromHub(function, lambda: place_of(owner))
    if name == "_unlock" and hasattr(owner, "_itc_putting"):
        return FromHub(function, lambda: None)
    origin, handed = gives(CALL), handed_at(function, 2)
    return FromHub(function if handed is None else _Handed(function, handed), lambda: origin)


class _Handed:
    """A method of a container that a hub calls."""

    __slots__ = ("_function", "_place")

    def __init__(self, function: Any, place: Any) -> None:
        self._function = function
        self._place = place

    def __call__(self, *words: Any) -> Any:
        called(self._function, words, self._place)
        return self._function(*words)


def _is_at_start(greenlet: Any) -> bool:
    """Whether it has not begun. The order of its start is known."""
    known = is_known(greenlet)
    return known is not None and known.line is not None and not known.has_begun


def place_of(one: Any) -> Place:
    """What those come after who see that this is ready: the end of a greenlet, or where somebody has set it."""
    known = is_known(one) if _greenlet and isinstance(one, _greenlet[0]) else None
    if known is None:
        return getattr(one, "_itc_job", None) or getattr(one, "_itc_place", None)
    has_ended(known)
    return known.valid_line()


def see(one: Any, depth: int = 1) -> None:
    """From now on the current greenlet comes after what has made this one ready."""
    if state.note is not None:
        come_after(place_of(one), depth + 1)


# Greenlets


def _put_greenlets(patches: Patches, module: ModuleType) -> None:
    plain: Any = vars(module)["Greenlet"]
    _greenlet.append(plain)
    patches.put(module, "Greenlet", _greenlet_class(plain))


def _name_of(greenlet: Any) -> str:
    name = greenlet.__dict__.get("name")
    function = getattr(greenlet, "_run", None)
    own = getattr(function, "__self__", None) is greenlet
    given = type(greenlet).__name__ if own else getattr(function, "__name__", "greenlet")
    return name if isinstance(name, str) else f"{given}#"


def _thread_line(greenlet: Any) -> Line | None:
    """The line of the thread that this greenlet stands for."""
    thread = getattr(getattr(greenlet, "_run", None), "__self__", None)
    line = thread.__dict__.get("_itc_line") if isinstance(thread, threading.Thread) else None
    return line if line is not None and line.tracer is state.tracer else None


def _begins(greenlet: Any) -> None:
    if state.note is not None and is_known(greenlet) is None:
        begins(greenlet, _name_of(greenlet), _thread_line(greenlet))


def _greenlet_class(plain: Any) -> Any:
    class Greenlet(plain):  # type: ignore[misc]
        __slots__ = ()

        def start(self) -> None:
            _begins(self)
            plain.start(self)

        def start_later(self, seconds: Any) -> None:
            _begins(self)
            plain.start_later(self, seconds)

        def join(self, timeout: Any = None) -> None:
            plain.join(self, timeout)
            _see_end(self)

        def get(self, block: Any = True, timeout: Any = None) -> Any:
            try:
                return plain.get(self, block, timeout)
            finally:
                _see_end(self)

        def ready(self) -> Any:
            is_ready = plain.ready(self)
            if is_ready and not is_internal(frame_at(1)):
                see(self)
            return is_ready

        def successful(self) -> Any:
            is_successful = plain.successful(self)
            if is_successful and not is_internal(frame_at(1)):
                see(self)
            return is_successful

        @property
        def dead(self) -> bool:
            is_dead: bool = plain.dead.__get__(self)
            if is_dead and not is_internal(frame_at(1)):
                see(self)
            return is_dead

    be_named(Greenlet, plain)
    return Greenlet


def _see_end(greenlet: Any) -> None:
    if state.note is not None and _greenlet[0].ready(greenlet):
        see(greenlet, 2)


# Whoever waits for several


def _put_waiting(patches: Patches, module: ModuleType) -> None:
    names = vars(module)
    iterator: Any = _iterator_class(names["_WaitIterator"])
    wait, iterate = names["wait_on_objects"], names["iwait_on_objects"]

    def iwait_on_objects(objects: Any, timeout: Any = None, count: Any = None) -> Any:
        if state.note is None or objects is None:
            return iterate(objects, timeout, count)
        return iterator(objects, vars(sys.modules["gevent._hub_local"])["get_hub_noargs"](), timeout, count)

    def wait_on_objects(objects: Any = None, timeout: Any = None, count: Any = None) -> Any:
        if state.note is None or objects is None:
            return wait(objects, timeout, count)
        return list(iwait_on_objects(objects, timeout, count))

    patches.put(module, "wait_on_objects", like(wait, wait_on_objects))
    patches.put(module, "iwait_on_objects", like(iterate, iwait_on_objects))


def _iterator_class(plain: Any) -> Any:
    class _WaitIterator(plain):  # type: ignore[misc]
        __slots__ = ()

        def __next__(self) -> Any:
            found = plain.__next__(self)
            see(found)
            return found

        next = __next__

    be_named(_WaitIterator, plain)
    return _WaitIterator


# Groups and pools


def _put_groups(patches: Patches, module: ModuleType) -> None:
    group: Any = vars(module)["Group"]
    patches.wrap(group, "add", _add_to_group)
    patches.wrap(group, "start", _start_in_group)
    patches.wrap(vars(module)["Pool"], "start", _start_in_group)
    patches.wrap(group, "join", _join_group)


def _start_in_group(original: Any) -> Any:
    def start(self: Any, greenlet: Any, *words: Any, **named: Any) -> Any:
        original(self, greenlet, *words, **named)
        _is_of_group(self, greenlet)

    return start


def _add_to_group(original: Any) -> Any:
    def add(self: Any, greenlet: Any, *words: Any, **named: Any) -> Any:
        original(self, greenlet, *words, **named)
        _is_of_group(self, greenlet)

    return add


def _is_of_group(group: Any, greenlet: Any) -> None:
    """Whoever joins the group comes after the end of this one, once it is started."""
    known = is_known(greenlet)
    line = None if known is None else known.valid_line()
    if line is None or line.pool is not None or state.note is None:
        return
    jobs_of(group).add(line)


def _join_group(original: Any) -> Any:
    def join(self: Any, *words: Any, **named: Any) -> Any:
        is_empty = original(self, *words, **named)
        jobs = self.__dict__.get("_itc_jobs")
        if is_empty and jobs is not None and state.note is not None:
            jobs.take(*place(frame_at(1)))
        return is_empty

    return join


# What `map` and `imap` give: each value comes from one greenlet, or from one thread of a pool


def _put_maps(patches: Patches, module: ModuleType) -> None:
    names = vars(module)
    for name, in_order in (("IMapUnordered", False), ("IMap", True)):
        patches.put(module, name, _map_class(names[name], in_order))


def _map_class(plain: Any, in_order: bool) -> Any:
    class Map(plain):  # type: ignore[misc]
        def _on_result(self, greenlet: Any) -> None:
            own = self.__dict__
            if state.note is not None:
                ends, taken = own.setdefault("_itc_ends", {}), own.get("_itc_taken", 0)
                ends[greenlet._imap_task_index if in_order else taken + len(ends)] = place_of(greenlet)
            plain._on_result(self, greenlet)

        def __next__(self) -> Any:
            own = self.__dict__
            try:
                return plain.__next__(self)
            finally:
                if state.note is not None:
                    taken = own["_itc_taken"] = own.get("_itc_taken", 0) + 1
                    come_after(own.get("_itc_ends", {}).pop(taken - 1, None))

        next = __next__

    be_named(Map, plain)
    return Map


# Pools of threads


def _put_threads(patches: Patches, module: ModuleType) -> None:
    patches.wrap(vars(module)["ThreadPool"], "spawn", _spawn_in_thread)


def _spawn_in_thread(original: Any) -> Any:
    def spawn(self: Any, func: Any, *args: Any, **kwargs: Any) -> Any:
        if state.note is None or not callable(func):
            return original(self, func, *args, **kwargs)
        job = Job(func)
        made = original(self, named_job(func, lambda function: partial(job.run, function)), *args, **kwargs)
        made._itc_job = job
        return made

    return spawn
