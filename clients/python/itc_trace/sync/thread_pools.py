"""Traces the pools of `multiprocessing`, of threads and of processes: each job is a task of its own, whoever runs it.

Two threads of the pool hand all jobs and all results on. Which one comes first there is luck, so these threads give no
order. A job comes after its own submission, and whoever takes a result after the jobs that gave it.
"""

from __future__ import annotations

import itertools
import threading
import weakref
from collections import deque
from collections.abc import Callable, Iterable, Iterator
from types import FrameType, ModuleType
from typing import Any

from . import pipes, process_pools
from .handed_on import HANDED, called, handed_at, watched_place
from ..model.lines import (
    CALLED, FINISH, MARK, RESULT, SPAWN, SUBMIT, TAKE_END, WORKER, LateJob, Line, Token, What, state,
)
from ..model.lock_identity import LockIdentity
from ..record import following
from ..record.messages import Sending, incoming_at
from ..record.noting import current, enter, joining, line_of_now, local, mark, take
from ..model.frames import frame_at, place
from .base import Patches, like
from .jobs_of_pools import JobsOfPool, jobs_of
from .later import once_imported
from .queues import plain_simple_queue

OWN_MODULE = "multiprocessing.pool"
OF_FAULTS = "_helper_reraises_exception"
"""The function by which a pool tells of a fault of what it goes through for arguments."""
_WITHOUT_STEPS = (list, tuple, range, str, bytes, dict, set, frozenset, deque)
"""What gives its elements without any code of the program."""


def put(patches: Patches) -> None:
    once_imported(OWN_MODULE, lambda module: _put_pools(patches, module))


def _put_pools(patches: Patches, module: ModuleType) -> None:
    names = vars(module)
    maps = names["mapstar"], names["starmapstar"]
    patches.wrap(names["ThreadPool"], "_setup_queues", lambda original: _set_up(original, maps))
    patches.wrap(names["Pool"], "_guarded_task_generation", lambda original: _generate(original, names["IMapIterator"]))
    patches.wrap(names["Pool"], "join", _join)
    patches.wrap(names["ApplyResult"], "__init__", _begin_result)
    patches.wrap(names["ApplyResult"], "wait", _wait)
    patches.wrap(names["ApplyResult"], "ready", _ready)
    patches.wrap(names["Pool"], "_setup_queues", _set_up_of_processes)
    plain = names["Pool"]._repopulate_pool_static
    patches.put(names["Pool"], "_repopulate_pool_static", staticmethod(like(plain, _repopulate(plain))))
    patches.wrap(module, "worker", _worker)
    unordered = names["IMapUnorderedIterator"]
    patches.wrap(names["IMapIterator"], "__init__", lambda original: _begin_iterator(original, unordered))
    patches.wrap(unordered, "_set", _set_unordered)


def _place() -> tuple[Any, int]:
    """Where the program itself stands, which has called the pool."""
    frame: FrameType | None = frame_at(1)
    while frame is not None and frame.f_globals.get("__name__") in (__name__, OWN_MODULE):
        frame = frame.f_back
    return place(frame)


def _mark(what: What) -> Token | None:
    note = state.note
    if note is None:
        return None
    token = Token(current(), what, *_place())
    note((MARK, token))
    return token


# Pools


def _set_up(original: Any, maps: tuple[Any, ...]) -> Any:
    def _setup_queues(self: Any) -> None:
        original(self)
        self._inqueue, self._outqueue = _Jobs(weakref.ref(self), maps), _Results()
        self._quick_put, self._quick_get = self._inqueue.put, self._outqueue.get
        note = state.note
        if note is not None:
            self._itc_line = Line(state.tracer, "pool#")
            self._itc_line.watch(self)
            note((SPAWN, current(), self._itc_line, *_place()))

    return _setup_queues


def _is_traced(pool: Any) -> bool:
    """Whether the jobs of the pool are followed: those of threads, or of processes that are traced."""
    return type(getattr(pool, "_inqueue", None)) is _Jobs or _is_of_processes(pool)


def _is_of_processes(pool: Any) -> bool:
    return "_itc_line" in getattr(pool, "__dict__", {}) and type(getattr(pool, "_quick_put", None)) is _Puts


def _join(original: Any) -> Any:
    def join(self: Any) -> None:
        original(self)
        jobs: JobsOfPool | None = self.__dict__.get("_itc_jobs")
        if jobs is not None:
            jobs.take(*_place())

    return join


Ended = Line | Token | str | None
"""A job that has ended: its task, the place of its end, or the message of it from another process."""


def _take_jobs(jobs: Iterable[Ended]) -> None:
    """From now on the current task comes after these jobs.

    One that is no task of its own is known by the place of its end.
    """
    where = _place()
    for job in list(jobs):
        note = state.note
        if isinstance(job, str):
            incoming_at(job, following.frame_of_start(1))
        elif not isinstance(job, Line):
            take(job)
        elif note is not None and job.tracer is state.tracer:
            note((TAKE_END, joining(job), job, *where))


# Jobs


class _Job:
    """A job that was given to a pool: the result that it is for, and the task that it is, if it is one of its own."""

    def __init__(
        self, awaited: _Awaited, part: int, line: Line | None, number: int, comes_after_initializer: bool,
        begin: Callable[[], Line | int] | None = None,
    ) -> None:
        """`begin` has it begun as a task of its own, or gives its number if tasks are scarce.

        None is for one that the thread of the pool does in its own line.
        """
        self._awaited = awaited
        self._part = part
        self._line = line
        self._number = number
        self._comes_after_initializer = comes_after_initializer
        self._begin = begin
        self.submitted = awaited.submitted
        self._worker: Line | None = None

    def run(self) -> None:
        """From here on the thread of the pool does the job."""
        if state.note is not None:
            self._begin_anew()
            line = self._line
            if line is None:
                worker = current()
                worker.job = LateJob(worker, self._number) if self._number else None
            else:
                ready = mark(WORKER) if self._comes_after_initializer else None
                self._worker = getattr(local, "line", None)
                enter(line)
                take(ready)
        local.job_of_pool = self
        take(self.submitted)

    def _begin_anew(self) -> None:
        """One that was given before tracing began is a task of its own, too."""
        if self._begin is None or self._line is not None and self._line.tracer is state.tracer:
            return
        begun = self._begin()
        self._line, self._number = (None, begun) if isinstance(begun, int) else (begun, 0)

    def end(self) -> None:
        local.job_of_pool = None
        line, note = self._line, state.note
        if line is None or line.tracer is not state.tracer:
            if line is not None and local.line is line:
                enter(self._worker)
            self._awaited.jobs[self._part] = mark(RESULT)
            return
        enter(self._worker)
        self._awaited.jobs[self._part] = line
        if note is not None:
            note((FINISH, line, False))


class _Jobs:
    """The queue from which the threads of a pool take its jobs.

    A job begins where it is put, and runs from where it is taken.
    """

    def __init__(self, pool: weakref.ref[Any], maps: tuple[Any, ...]) -> None:
        self._queue = plain_simple_queue()
        self._pool = pool
        self._maps = maps

    def put(self, job: Any) -> None:
        self._queue.put((job, None if job is None else self._begun(job)))

    def get(self, block: bool = True, timeout: float | None = None) -> Any:
        job, begun = self._queue.get(block, timeout)
        if block and begun is not None:  # Else the pool ends, and only empties the queue.
            begun.run()
            self._tell_called(job, begun.submitted)
        return job

    def _tell_called(self, job: Any, submitted: Token | None) -> None:
        """Tells of a method of a container that is the job itself."""
        _, _, function, words, _ = job
        handed = None if submitted is None else watched_place(submitted.code, submitted.instruction)
        if function not in self._maps:
            called(function, tuple(words), handed)
        elif type(words[0][0]) in HANDED:
            for one in words[0][1]:
                called(words[0][0], (one,) if function is self._maps[0] else tuple(one), handed)

    def _begun(self, job: Any) -> _Job | None:
        tracer, pool = state.tracer, self._pool()
        result = None if pool is None else pool._cache.get(job[0])
        awaited = getattr(result, "_itc_awaited", None)
        if pool is None or awaited is None:
            return None
        has_initializer = getattr(pool, "_initializer", None) is not None
        if pool._processes == 1:
            return _Job(awaited, job[1], None, 0, has_initializer)
        name, result_of = f"{self._name_of(job)}#", weakref.ref(result)

        def begin_left() -> Line | int:
            tracer = state.tracer
            return 0 if tracer is None else self._line_of(name, result_of(), (), tracer.parent_of_strangers)

        if state.note is None or tracer is None:
            return _Job(awaited, job[1], None, 0, False, begin_left)
        begun = self._line_of(name, result, awaited.lent, self._parent(pool, awaited))
        if isinstance(begun, int):
            return _Job(awaited, job[1], None, begun, has_initializer)
        return _Job(awaited, job[1], begun, 0, has_initializer, begin_left)

    def _line_of(self, name: str, result: Any, lent: tuple[LockIdentity, ...], parent: Line) -> Line | int:
        """The task of a job, which begins. If tasks are scarce, it is a number, and 0 if tracing has ended."""
        note, tracer, pool = state.note, state.tracer, self._pool()
        if note is None or tracer is None:
            return 0
        number = tracer.next_job()
        if number > tracer.most_lines:
            return number
        line = Line(tracer, name)
        line.must_finish = True
        line.lent = lent
        if result is not None:
            line.watch(result)
        note((SPAWN, parent, line, *_place()))
        if pool is not None:
            jobs_of(pool).add(line)
        return line

    def _parent(self, pool: Any, awaited: _Awaited) -> Line:
        """The task that starts the job.

        That is the thread here if it has run code of the program for it, as to make an argument.
        """
        own: Line | None = pool.__dict__.get("_itc_line")
        return current() if awaited.is_by_steps or own is None or own.tracer is not state.tracer else own

    def _name_of(self, job: Any) -> str:
        _, _, function, words, _ = job
        if function in self._maps:
            function = words[0][0]
        return str(getattr(function, "__name__", "job"))


class _Results:
    """The queue by which the threads of a pool give results back."""

    def __init__(self) -> None:
        self._queue = plain_simple_queue()
        self.get = self._queue.get

    def put(self, result: Any) -> None:
        running: _Job | None = getattr(local, "job_of_pool", None)
        if running is not None:
            running.end()
        self._queue.put(result)


# Processes: a job brings the message of who submitted it, and a result that of the job's end.


def _set_up_of_processes(original: Any) -> Any:
    def _setup_queues(self: Any) -> None:
        original(self)
        note = state.note
        if note is None or not following.is_on():
            return
        line = self._itc_line = self._inqueue._itc_line = Line(state.tracer, "pool#")
        line.watch(self)
        note((SPAWN, current(), line, *_place()))
        self._quick_put = _Puts(self._quick_put, weakref.ref(self))
        self._quick_get = _Gets(self._quick_get, weakref.ref(self))

    return _setup_queues


def _repopulate(original: Any) -> Any:
    """The processes are children of the pool, whichever thread starts them."""

    def _repopulate_pool_static(ctx: Any, Process: Any, processes: Any, pool: Any, inqueue: Any, *words: Any) -> Any:
        with following.as_child_of(getattr(inqueue, "_itc_line", None)):
            return original(ctx, Process, processes, pool, inqueue, *words)

    return _repopulate_pool_static


class _Puts:
    """How a thread of the pool gives jobs to its processes."""

    def __init__(self, put: Any, pool: weakref.ref[Any]) -> None:
        self._put = put
        self._pool = pool

    def __call__(self, job: Any) -> None:
        with pipes.silence():
            self._put(job if job is None else self._named(job))

    def _named(self, job: Any) -> Any:
        number, part, function, words, named = job
        awaited = _awaited_of(self._pool, number)
        if awaited is None or getattr(function, "__name__", "") == OF_FAULTS:
            return job
        sending = Sending.begin(None) if awaited.is_by_steps else awaited.sending
        return number, part, process_pools.Job(function, sending), words, named


class _Gets:
    """How a thread of the pool gets results from its processes."""

    def __init__(self, get: Any, pool: weakref.ref[Any]) -> None:
        self._get = get
        self._pool = pool

    def __call__(self) -> Any:
        result = self._get()
        if result is None:
            return None
        number, part, (is_right, value) = result
        value, message = process_pools.opened(value)
        awaited = _awaited_of(self._pool, number)
        if awaited is not None:
            awaited.jobs[part] = message
        return number, part, (is_right, value)


def _awaited_of(pool: weakref.ref[Any], number: int) -> _Awaited | None:
    one = pool()
    return None if one is None else getattr(one._cache.get(number), "_itc_awaited", None)


def _worker(original: Any) -> Any:
    """In a process of the pool: its results bring their messages by themselves."""

    def worker(inqueue: Any, outqueue: Any, *words: Any, **named: Any) -> Any:
        if hasattr(inqueue, "_writer"):
            outqueue.put = _silent(outqueue.put)
        return original(inqueue, outqueue, *words, **named)

    return worker


def _silent(put: Any) -> Any:
    def put_silently(result: Any) -> None:
        with pipes.silence():
            put(result)

    return put_silently


# Results


class _Awaited:
    """What whoever takes a result comes after: the jobs that gave its parts, and the call of its callback."""

    def __init__(self, is_of_processes: bool = False) -> None:
        self.sending = Sending.begin(following.frame_of_start(1)) if is_of_processes else None
        """The message of who submits, if the jobs are done by other processes."""
        self.submitted = _mark(SUBMIT)
        self.lent = () if self.submitted is None else self.submitted.line.held
        self.jobs: dict[int, Ended] = {}
        self.called: Token | None = None
        self.order: list[int] | None = None
        """The parts in the order in which they came in, if they are given in this one."""
        self.is_by_steps = False
        """Whether the pool runs code of the program to make the arguments of its jobs."""
        self._taken_by: Line | None = None

    def take(self) -> None:
        if state.note is not None and self._taken_by is not line_of_now():
            _take_jobs(self.jobs.values())
            take(self.called)
            self._taken_by = line_of_now()

    def take_part(self, number: int) -> None:
        """The same of the part that is given as the one of this number."""
        _take_jobs([self.jobs.pop(number if self.order is None else self.order[number], None)])


def _begin_result(original: Any) -> Any:
    def __init__(self: Any, pool: Any, callback: Any, error_callback: Any) -> Any:
        if not _is_traced(pool):
            return original(self, pool, callback, error_callback)
        awaited = self._itc_awaited = _Awaited(_is_of_processes(pool))
        original(
            self, pool, *(None if one is None else _called_back(one, awaited) for one in (callback, error_callback))
        )
        self._event._itc_is_silent = True

    return __init__


def _called_back(callback: Any, awaited: _Awaited) -> Any:
    """The callback, called after the jobs and after who gave it. Whoever takes the result comes after it."""

    place_of_callback = handed_at(callback, 2)

    def call(value: Any) -> Any:
        take(awaited.submitted)
        awaited.take()
        called(callback, (value,), place_of_callback)
        try:
            return callback(value)
        finally:
            awaited.called = mark(CALLED)

    return like(callback, call)


def _wait(original: Any) -> Any:
    """Whoever waits for too short a time has not seen the result, though it may come right behind that."""

    def wait(self: Any, timeout: float | None = None) -> None:
        if "_itc_awaited" not in self.__dict__:
            original(self, timeout)
        elif self._event.wait(timeout):
            _take_result(self)

    return wait


def _ready(original: Any) -> Any:
    def ready(self: Any) -> bool:
        is_ready = bool(original(self))
        if is_ready:
            _take_result(self)
        return is_ready

    return ready


def _take_result(result: Any) -> None:
    awaited: _Awaited | None = result.__dict__.get("_itc_awaited")
    if awaited is not None:
        awaited.take()


# Results that are given one by one


class _Items(deque[Any]):
    """The results that came in. Whoever takes one holds the iterator's lock meanwhile."""

    def __init__(self, awaited: _Awaited) -> None:
        super().__init__()
        self._awaited = awaited
        self._numbers = itertools.count()

    def popleft(self) -> Any:
        item = super().popleft()
        self._awaited.take_part(next(self._numbers))
        return item


def _begin_iterator(original: Any, unordered: type) -> Any:
    def __init__(self: Any, pool: Any) -> None:
        original(self, pool)
        if _is_traced(pool):
            self._itc_awaited = _Awaited(_is_of_processes(pool))
            self._itc_awaited.order = [] if isinstance(self, unordered) else None
            self._items = _Items(self._itc_awaited)
            self._cond = threading.Condition()  # It is made here, and so gives no order.

    return __init__


def _set_unordered(original: Any) -> Any:
    def _set(self: Any, i: int, obj: Any) -> None:
        awaited: _Awaited | None = self.__dict__.get("_itc_awaited")
        if awaited is not None and awaited.order is not None:
            awaited.order.append(i)  # One thread sets them all.
        original(self, i, obj)

    return _set


def _generate(original: Any, iterator: Any) -> Any:
    def _guarded_task_generation(self: Any, result_job: int, func: Any, iterable: Any) -> Any:
        jobs = original(self, result_job, func, iterable)
        result = self._cache.get(result_job)
        awaited: _Awaited | None = getattr(result, "_itc_awaited", None)
        if awaited is None or not isinstance(result, iterator) or type(iterable) in _WITHOUT_STEPS:
            return jobs
        awaited.is_by_steps = True
        return _after(awaited.submitted, jobs)

    return _guarded_task_generation


def _after(submitted: Token | None, jobs: Iterator[Any]) -> Iterator[Any]:
    take(submitted)
    yield from jobs
