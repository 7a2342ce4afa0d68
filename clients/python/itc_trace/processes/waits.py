"""What each thread and each task of a loop waits for: who holds it, and since when.

All of it is read from the frames of those who wait, so it costs nothing before somebody asks.
"""

from __future__ import annotations

import dis
import linecache
import queue
import sys
import threading
import time
import weakref
from collections.abc import Callable, Iterator
from concurrent.futures import Future
from dataclasses import dataclass
from itertools import chain, islice, tee
from operator import attrgetter, itemgetter, methodcaller
from types import CodeType, FrameType
from typing import Any

from ..model.file_names import name_of_file
from ..model.frames import is_internal, line_of
from ..model.frames_of_threads import all_at_once, caller_of, frame_of, frames_now, locals_of
from ..model.lines import Line, state
from ..model.lock_identity import LockIdentity
from ..record import own_threads
from ..sync.locks import gave, took

_current_frames: Callable[[], dict[int, FrameType]] = vars(sys)["_current_frames"]
_ITEMS, _THREAD, _FRAME, _INSTRUCTION = methodcaller("items"), itemgetter(0), itemgetter(1), attrgetter("f_lasti")
LIBRARY = frozenset({"multiprocessing", "subprocess", "selectors", "socket", "ssl", "contextlib"})
"""Beside what is internal: whoever waits within these was sent there by the program."""
WAITS = "waits for "
OWN = __name__.rpartition(".")[0], frames_now.__module__
"""The package of what looks."""
IMPORT_LOCK = "_ModuleLock"
OF_PROCESSES = "_itc_traced"
"""The attribute by which a lock of `multiprocessing` has what is known of it."""
_NOTING = (took.__code__, gave.__code__)
"""Who is there has acquired the lock, or is about to release it. It may be held back, and waits for no task."""
FUTURES = "the results of futures"
_FUNCTIONS = {
    ("concurrent.futures._base", "wait"): FUTURES,
    ("concurrent.futures._base", "as_completed"): FUTURES,
    ("itc_trace.sync.starts", "wait"): "the end of a child process",
}
"""What functions of these modules wait for that are called as no method."""
SHORT = 0.05
"""In seconds. If a wait was seen for no longer, nobody knows when it began."""
LONG = 0.5
"""In seconds. So long a thread stays at one call of its own only in code of C."""


@dataclass
class Wait:
    """A task that waits, or that is told of as it does not."""

    task: str
    what: str
    """As `waits for lock L (shop.py:3)`."""
    place: str
    since: float = 0.0
    line: Line | None = None
    on: Line | None = None
    """The task that holds what is waited for, or whose end it is."""
    lock: LockIdentity | None = None
    held: str = ""
    """Where its holder has acquired it."""
    is_endless: bool = True
    """Whether nothing but another task of this process can end it."""
    at: tuple[CodeType | None, int] = (None, 0)
    lasts: bool = False
    """Whether it has no limit of time. Another process may end it."""
    process: str = ""
    """The task that a process is whose end is waited for."""
    elsewhere: str = ""
    """Who of another process holds the lock, in words for a person."""

    def told(self, now: float) -> Iterator[str]:
        since = f" for {now - self.since:.1f} s" if self.since and now - self.since >= SHORT else ""
        yield f"{self.task} {self.what}{since} at {self.place}"
        if self.lock is not None and self.on is not None:
            yield f"    {name_of(self.on)} holds it, acquired at {self.held}"
        elif self.lock is not None:
            yield f"    {self.elsewhere or 'no task of this process holds it'}"
        for lock in () if self.line is None else self.line.held:
            if lock.across:
                yield f"    {self.task} holds {lock.name}, acquired at {place_text(lock.taken_by, lock.taken_at)}"


class Since:
    """Since when each thread and each task has been where it is. It is looked at now and then.

    A thread is known by its number, and a task by a weak reference: one that is over is not kept.
    """

    def __init__(self) -> None:
        self._seen: dict[int | weakref.ref[Any], tuple[object, float]] = {}

    def of(self, who: int | weakref.ref[Any], where: object, now: float) -> float:
        known = self._seen.get(who)
        if known is None or known[0] != where:
            known = self._seen[who] = where, now
        return known[1]

    def look(self) -> dict[int, float]:
        """Notes where all threads are. Gives since when each has been there."""
        now = time.monotonic()
        places = {thread: where for thread, *where in _places() if thread not in own_threads.IDENTS}
        found = {thread: self.of(thread, tuple(where), now) for thread, where in places.items()}
        for gone in [one for one in self._seen if (one not in places if isinstance(one, int) else one() is None)]:
            del self._seen[gone]
        return found


def _places() -> list[tuple[int, int, int]]:
    """The number of each thread, and where it is, as `_where` has it.

    A frame that is held keeps what is in it behind its end. So one call makes all of it in C, and lets go of it: no
    thread of the program goes on meanwhile.
    """
    return all_at_once(_places_once_asked())


def _places_once_asked() -> Iterator[tuple[int, int, int]]:
    """The same, with no frame yet. What is made on the way is held by nothing but this iterator."""
    frames = chain.from_iterable(map(_ITEMS, islice(iter(_current_frames, None), 1)))
    first, second, third = tee(frames, 3)
    return zip(map(_THREAD, first), map(id, map(_FRAME, second)), map(_INSTRUCTION, map(_FRAME, third)))


def _where(frame: FrameType) -> object:
    return id(frame), frame.f_lasti


def _frames() -> dict[int, FrameType]:
    """The threads that are not the package's own."""
    return {thread: frame for thread, frame in frames_now().items() if not _is_own(frame)}


def _is_own(frame: FrameType) -> bool:
    outermost, caller = frame, caller_of(frame)
    while caller is not None:
        outermost, caller = caller, caller_of(caller)
    return outermost.f_globals.get("__name__") == own_threads.__name__


def waits(since: Since) -> list[Wait]:
    """What all of them wait for now."""
    now = time.monotonic()
    found: list[Wait] = []
    for thread, frame in sorted(_frames().items(), key=lambda one: one[0] != threading.main_thread().ident):
        frame = _interrupted(frame)
        begun = since.of(thread, _where(frame), now)
        found += _of_thread(thread, frame, begun, now, since)
    return found


def _of_thread(thread: int, frame: FrameType, begun: float, now: float, since: Since) -> Iterator[Wait]:
    name, line = _name_of_thread(thread)
    inner: list[FrameType] = []
    outer: FrameType | None = frame
    while outer is not None and _is_library(outer):
        inner.append(outer)
        outer = caller_of(outer)
    loop = next((one for frame in inner if (one := _loop_of(frame)) is not None), None)
    if loop is not None:
        tasks = list(_of_loop(loop, since, now, begun))
        yield Wait(name, "runs a loop", _place(outer), begun, line, is_endless=_only_tasks_go_on(loop))
        yield from tasks
        return
    if not inner:
        is_in_c = now - begun > LONG and not _has_jumped(frame)
        words = "is in code of C, or waits there," if is_in_c else "runs"
        yield Wait(name, words, _place(outer), begun if is_in_c else 0.0, line, is_endless=False)
        return
    wait = _described(inner, name, line, _place(outer), begun)
    wait.at = (None, 0) if outer is None else (outer.f_code, outer.f_lasti)
    yield wait


def _interrupted(frame: FrameType) -> FrameType:
    """Where the thread was as a signal had it look what all wait for."""
    caller = caller_of(frame)
    while caller is not None and str(frame.f_globals.get("__name__")).startswith(OWN):
        frame, caller = caller, caller_of(caller)
    return frame


def _has_jumped(frame: FrameType) -> bool:
    """Whether the thread is at a jump or at the begin of a function, where nothing of C runs.

    A loop lets others go on at its jump alone, so it is seen there each time.
    """
    code, place = frame.f_code.co_code, max(frame.f_lasti, 0)
    while place and dis.opname[code[place]] == "CACHE":
        place -= 2
    return "JUMP" in dis.opname[code[place]] or dis.opname[code[place]] in ("RESUME", "FOR_ITER", "NOP")


def _is_library(frame: FrameType) -> bool:
    name = frame.f_globals.get("__name__")
    return is_internal(frame) or isinstance(name, str) and name.partition(".")[0] in LIBRARY


def _described(inner: list[FrameType], name: str, line: Line | None, place: str, begun: float) -> Wait:
    """By the outermost frame of the library whose object is known."""
    if any(frame.f_code in _NOTING for frame in inner):
        return Wait(name, "runs", place, 0.0, line, is_endless=False)
    is_bounded = any(_has_limit(frame) for frame in inner)
    for frame in reversed(inner):
        words = _FUNCTIONS.get((str(frame.f_globals.get("__name__")), frame.f_code.co_name))
        if words is not None:
            is_endless = not is_bounded and words == FUTURES
            return Wait(name, f"{WAITS}{words}", place, begun, line, is_endless=is_endless)
        one: Any = locals_of(frame).get("self")
        what = _what(one, frame.f_code.co_name)
        if what:
            wait = Wait(name, f"{WAITS}{what}", place, begun, line, is_endless=not is_bounded and _is_within(one))
            wait.lasts = not is_bounded
            lock = _traced_lock(one)
            if lock is not None:
                identity: LockIdentity = lock._itc_identity
                wait.is_endless = wait.is_endless and not identity.across
                wait.lock, wait.on = identity, _holder_of(lock)
                wait.held = place_text(identity.taken_by, identity.taken_at)
            elif isinstance(one, threading.Thread):
                wait.on = one.__dict__.get("_itc_line")
            elif frame.f_code.co_name == "join" and isinstance(ended := getattr(one, "_itc_line", None), Line):
                wait.process = name_of(ended)
            elif type(one).__name__ == IMPORT_LOCK and one.owner is not None:
                wait.on = _name_of_thread(one.owner)[1]
            return wait
    if any(frame.f_code.co_name == "_worker" for frame in inner):
        return Wait(name, "waits for a job of its pool", place, begun, line, is_endless=not is_bounded)
    if any(frame.f_code.co_name == "_shutdown" for frame in inner):
        return Wait(name, "waits for the end of all threads", place, begun, line)
    known = next((frame for frame in inner if not _is_of_package(frame)), None)
    where = "code of C" if known is None else f"{known.f_globals.get('__name__')}.{known.f_code.co_name}"
    return Wait(name, f"is in {where}", place, begun, line, is_endless=False)


def _traced_lock(one: Any) -> Any:
    """What is known of the lock that this one is, or by which a semaphore or a lock of processes is followed."""
    own = getattr(one, "__dict__", {})
    of_processes = own.get(OF_PROCESSES)
    for lock in (one, own.get("_itc_permit"), of_processes, getattr(of_processes, "one", None)):
        if isinstance(getattr(lock, "_itc_identity", None), LockIdentity):
            return lock
    return None


def _holder_of(lock: Any) -> Line | None:
    """The task of this process that holds it. A child knows who held it in its parent as that forked."""
    holder: Line | None = lock._itc_holder
    return None if holder is None or holder.tracer is not state.tracer else holder


def _is_of_package(frame: FrameType) -> bool:
    return str(frame.f_globals.get("__name__")).partition(".")[0] == "itc_trace"


def _is_within(one: object) -> bool:
    """Whether only this process can end the wait."""
    return not type(one).__module__.startswith(("multiprocessing", "subprocess"))


def _has_limit(frame: FrameType) -> bool:
    given = locals_of(frame).get("timeout")
    return isinstance(given, (int, float)) and not isinstance(given, bool) and given >= 0


def _kinds(name: str) -> tuple[type, ...]:
    """The classes of this name, for threads and for the tasks of a loop."""
    return (vars(threading)[name], *_kinds_of_loops(name))


def _kinds_of_loops(name: str) -> tuple[type, ...]:
    """The class of asyncio of this name, if the program has it."""
    kind = getattr(sys.modules.get("asyncio"), name, None)
    return () if kind is None else (kind,)


def _what(one: Any, function: str) -> str:
    """What an object of the library is waited for, in words. Nothing of one that is not known."""
    identity = getattr(one, "_itc_identity", None)
    if isinstance(identity, LockIdentity):
        return identity.name
    kind = type(one)
    if isinstance(one, threading.Thread):
        line = one.__dict__.get("_itc_line")
        name = name_of(line) if isinstance(line, Line) else one.name
        return f"the end of thread {name}" if function == "join" else ""
    if isinstance(one, _kinds("Event")):
        return "an event"
    if isinstance(one, _kinds("Condition")):
        return "a condition" if function in ("wait", "wait_for") else ""
    if isinstance(one, _kinds("Semaphore")):
        return "a permit of a semaphore"
    if isinstance(one, _kinds("Barrier")):
        return "others at a barrier"
    is_queue = isinstance(one, (queue.Queue, *_kinds_of_loops("Queue")))
    if is_queue or kind.__name__ in ("SimpleQueue", "Queue", "JoinableQueue"):
        return {"get": "an item of a queue", "put": "room in a queue", "join": "the items of a queue to be done"}.get(
            function, "")
    if kind.__name__ == IMPORT_LOCK:
        return f"the import of {one.name}" if function == "acquire" else ""
    if isinstance(one, Future):
        return "the result of a future" if function in ("result", "exception") else ""
    return _of_processes(one, kind, function)


def _of_processes(one: Any, kind: type, function: str) -> str:
    module = kind.__module__
    if module.startswith("multiprocessing") and function == "join":
        return f"the end of process {getattr(one, 'name', '')}"
    if module == "multiprocessing.connection" and function in ("recv", "recv_bytes", "poll", "send"):
        return "a pipe"
    if module.startswith("multiprocessing") and function in ("acquire", "__enter__"):
        lock = _traced_lock(one)
        return "a lock of several processes" if lock is None else str(lock._itc_identity.name)
    if module == "subprocess" and function in ("wait", "communicate"):
        return f"the end of process {getattr(one, 'pid', '')}"
    return ""


# The tasks of a loop


def _loop_of(frame: FrameType) -> Any:
    return locals_of(frame).get("self") if frame.f_code.co_name == "run_forever" else None


def _of_loop(loop: Any, since: Since, now: float, idle: float) -> Iterator[Wait]:
    """Its tasks. Since the loop itself waits, none of them has taken a step."""
    for task in sorted(sys.modules["asyncio"].all_tasks(loop), key=id):
        frames = list(_frames_of(task.get_coro()))
        if not frames:
            continue
        inner: list[FrameType] = []
        while frames and _is_library(frames[-1]):
            inner.append(frames.pop())
        outer = frames[-1] if frames else None
        line = getattr(task, "_itc_line", None)
        name = name_of(line) if isinstance(line, Line) else task.get_name()
        begun = min(idle, since.of(weakref.ref(task), [frame.f_lasti for frame in [*inner, *frames]], now))
        yield _of_task(task, inner, name, line, outer, begun)


def _frames_of(coroutine: Any) -> Iterator[FrameType]:
    """Those of a coroutine and of what it awaits, from the outermost one on."""
    while coroutine is not None:
        frame = frame_of(coroutine)
        if frame is None:
            return
        yield frame
        coroutine = getattr(coroutine, "cr_await", None) or getattr(coroutine, "gi_yieldfrom", None)


def _of_task(
    task: Any, inner: list[FrameType], name: str, line: Line | None, outer: FrameType | None, begun: float
) -> Wait:
    awaited: Any = getattr(task, "_fut_waiter", None)
    if any(frame.f_code.co_name in ("sleep", "timeout") for frame in inner):
        wait = Wait(name, "sleeps", _place(outer), begun, line, is_endless=False)
    elif isinstance(awaited, _kinds_of_loops("Task")):
        on = getattr(awaited, "_itc_line", None)
        called = name_of(on) if isinstance(on, Line) else awaited.get_name()
        wait = Wait(name, f"{WAITS}the end of task {called}", _place(outer), begun, line, on)
    elif any(_what(locals_of(frame).get("self"), frame.f_code.co_name) for frame in inner):
        wait = _described(inner, name, line, _place(outer), begun)
    elif awaited is not None:
        wait = Wait(name, "waits for a future", _place(outer), begun, line, is_endless=False)
    else:
        wait = Wait(name, "runs, or is about to", _place(outer), 0.0, line, is_endless=False)
    wait.at = (None, 0) if outer is None else (outer.f_code, outer.f_lasti)
    return wait


def _only_tasks_go_on(loop: Any) -> bool:
    """Whether neither a time nor a file has the loop go on: it has its own file alone."""
    selector = getattr(loop, "_selector", None)
    files = [] if selector is None else list(selector.get_map() or ())
    return not getattr(loop, "_scheduled", [1]) and not getattr(loop, "_ready", [1]) and len(files) == 1


# Names and places


def _name_of_thread(thread: int) -> tuple[str, Line | None]:
    if thread == threading.main_thread().ident and state.tracer is not None:
        return name_of(state.tracer.main), state.tracer.main
    known = vars(threading)["_active"].get(thread)
    if known is None:
        return f"thread {thread}", None
    line = known.__dict__.get("_itc_line")
    return (name_of(line), line) if isinstance(line, Line) else (f"thread {known.name}", None)


def name_of(line: Line) -> str:
    return line.name or line.hint


def _place(frame: FrameType | None) -> str:
    return "?" if frame is None else place_text(frame.f_code, frame.f_lasti)


def place_text(code: CodeType | None, instruction: int) -> str:
    if code is None:
        return "?"
    number = line_of(code, instruction)
    source = linecache.getline(code.co_filename, number).strip()
    where = "" if code.co_qualname == "<module>" else f" in {code.co_qualname}"
    return f"{name_of_file(code.co_filename)}:{number}{where}{':  ' if source else ''}{source}"


def cycle_of(found: list[Wait]) -> list[Wait]:
    """Those of which each waits for the next one, and the last one for the first."""
    by_line = {one.line: one for one in found if one.line is not None}
    for begin in found:
        path: list[Wait] = []
        one: Wait | None = begin
        while one is not None and one.is_endless and one not in path:
            path.append(one)
            one = by_line.get(one.on) if one.on is not None else None
        if one is not None and one in path:
            return path[path.index(one):]
    return []
