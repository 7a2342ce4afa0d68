"""Traces `concurrent.futures`: a job comes after its submission, and whoever takes a result after the job.

Each job of a pool is a task of its own, whichever thread runs it: a pool promises no order between its jobs. Where one
thread runs all of them, or where tasks become scarce, a job belongs to the line of the pool's thread.
"""

from __future__ import annotations

import concurrent.futures
import concurrent.futures._base as base
import concurrent.futures.thread as pools
import weakref
from collections.abc import Callable, Iterator
from types import CodeType
from typing import Any

from .handed_on import called, handed_at, watched_place
from ..model.lines import CALLBACK, FINISH, JOIN, RESULT, SPAWN, SUBMIT, TAKE_END, WORKER, LateJob, Line, Token, state
from ..model.answers import NOTHING, YES
from ..record.noting import (
    are_in_place, come_back, current, enter, joining, leave_task, line_of_now, local, mark, starting, take, take_asked,
    without_own_frame,
)
from ..model.frames import frame_at, is_internal, place
from ..model.lock_identity import Poll
from ..record.messages import incoming_at
from .base import Patches, like, named_like
from .jobs_of_pools import JobsOfPool, jobs_of
from .left_behind import Outcome, begun, taken
from .polls import poll_at
from ..record.awaited import await_at_exit

_DONE = {base.CANCELLED, base.CANCELLED_AND_NOTIFIED, base.FINISHED}
_WAITING = (base.PENDING, base.RUNNING)
FOR_THE_PROGRAM: set[CodeType] = set()
"""Code of libraries that makes a future for the program to wait for."""


def put(patches: Patches) -> None:
    future = base.Future
    patches.put(future, "_itc_token", None)
    patches.put(future, "_itc_sources", ())
    patches.put(future, "_itc_message", None)
    patches.wrap(future, "set_result", _set_result)
    patches.wrap(future, "set_exception", _set_exception)
    for name in ("result", "exception"):
        patches.wrap(future, name, _result)
    patches.wrap(future, "cancel", _cancel)
    patches.wrap(future, "_invoke_callbacks", _invoke_callbacks)
    for name in ("done", "cancelled"):
        patches.wrap(future, name, _seeing)
    patches.wrap(future, "add_done_callback", _add_done_callback)
    _put_pools(patches)
    patches.replace(concurrent.futures, "wait", like(base.wait, _wait(base.wait)))
    patches.replace(concurrent.futures, "as_completed", like(base.as_completed, _as_completed(base.as_completed)))


# Results


def take_result(future: Any, depth: int = 2, poll: Poll | None = None) -> None:
    """From now on the current task comes after whatever gave the future its result, or has seen that by a poll."""
    taken(future)
    if getattr(future, "_itc_message", None) is not None:  # It is no future of asyncio.
        incoming_at(future._itc_message, frame_at(depth))
    elif future._itc_token is not None:
        take_asked(future._itc_token, poll, depth + 1)
    else:
        for source in future._itc_sources:
            take_any(source, depth + 1)


def is_settled_by_source(future: Any) -> bool:
    """Whether one of the futures that this one stands for is done. Else whoever cancels it gives it its result."""
    return any(source.done() for source in future._itc_sources)


def take_any(future: Any, depth: int = 2) -> None:
    """The same of a future of any kind: of a task of asyncio it is the task's end."""
    taken(future)
    line = getattr(future, "_itc_line", None)
    if line is not None and not isinstance(future, base.Future):
        note = state.note
        if note is not None and line.tracer is state.tracer:
            note((TAKE_END, joining(line), line, *place(frame_at(depth))))
    elif hasattr(future, "_itc_sources"):
        take_result(future, depth + 1)


def _settle(future: Any, token: Token | None, are_waiting: tuple[str, ...], settle: Callable[[], Any]) -> Any:
    """Gives the future its result, if it is in one of these states, and its place with it. Whoever comes too late gives
    no place.

    Nobody sees the one without the other, as nobody else has the future meanwhile. Its callbacks are called behind
    that.
    """
    with future._condition:
        if future._state in are_waiting:
            future._itc_token = token
        before, local.settled = getattr(local, "settled", None), [future]
        try:
            told = settle()
        finally:
            settled, local.settled = local.settled, before
    for one in settled[1:]:
        one._invoke_callbacks()
    return told


def _invoke_callbacks(original: Any) -> Any:
    def _invoke_callbacks(self: Any) -> None:
        settled = getattr(local, "settled", None)
        if settled is not None and settled[0] is self:
            settled.append(self)
        else:
            original(self)

    return _invoke_callbacks


def _set_result(original: Any) -> Any:
    def set_result(self: Any, result: Any) -> None:
        _set(original, self, result)

    return set_result


def _set_exception(original: Any) -> Any:
    def set_exception(self: Any, exception: Any) -> None:
        _set(original, self, exception)

    return set_exception


def _set(original: Any, future: Any, value: Any) -> None:
    if state.note is None or future._itc_sources:
        original(future, value)
    else:
        _settle(future, mark(RESULT), _WAITING, lambda: original(future, value))


def _cancel(original: Any) -> Any:
    def cancel(self: Any) -> bool:
        if state.note is None or is_settled_by_source(self):
            return bool(original(self))
        return bool(_settle(self, mark(RESULT), (base.PENDING,), lambda: original(self)))

    return cancel


def _result(original: Any) -> Any:
    """Whoever waits for too short a time has not seen the result, though it may come right behind that."""

    def result(self: Any, timeout: float | None = None) -> Any:
        try:
            told = original(self, timeout)
        except BaseException as error:
            if error is self._exception or isinstance(error, base.CancelledError) and self._state in _DONE:
                take_result(self)
            without_own_frame(error)
            self = None  # The future's exception refers to this frame.
            raise
        take_result(self, poll=None if timeout is None else poll_at(frame_at(1), original.__name__, None))
        return told

    return result


def _seeing(original: Any) -> Any:
    """A `done` or a `cancelled` after which whoever sees that it is so comes after the result."""

    def see(self: Any) -> bool:
        is_so = bool(original(self))
        if is_so and not is_internal(frame_at(1)):
            take_result(self, poll=poll_at(frame_at(1), original.__name__, YES))
        return is_so

    return see


def _add_done_callback(original: Any) -> Any:
    def add_done_callback(self: Any, fn: Any) -> Any:
        taken(self)
        if state.note is not None and callable(fn) and not is_internal(frame_at(1)):
            fn = _called_back(fn, mark(CALLBACK))
        return original(self, fn)

    return add_done_callback


def _called_back(callback: Any, token: Token | None) -> Any:
    """The callback, called after whoever added it, and after the result."""

    def call(future: Any) -> Any:
        line = None if token is None else _line_of_its_own(token, future, callback)
        if line is None:
            return call_now(future)
        left, before = leave_task(), getattr(local, "line", None)
        enter(line)
        try:
            return call_now(future)
        finally:
            if local.line is line:  # Else tracing has begun anew, and the thread has a line there.
                enter(before)
            come_back(left)
            _note_callback_done(line, future)

    def call_now(future: Any) -> Any:
        take(token)
        take_result(future)
        if token is not None:
            called(callback, (future,), watched_place(token.code, token.instruction))
        return callback(future)

    return named_like(callback, call)


def _line_of_its_own(added: Token, future: Any, callback: Any) -> Line | None:
    """The task that a callback is which is called as it is added, since the future happens to be done by then.

    If whoever adds it has seen that before, or has done it, it is a part of that task.
    """
    note, tracer, result = state.note, state.tracer, getattr(future, "_itc_token", None)
    if note is None or tracer is None or result is None or result.line.tracer is not tracer or are_in_place():
        return None
    adder = line_of_now()
    if adder is not added.line or adder is result.line or result.last_taker == adder.number:
        return None
    if tracer.next_job() > tracer.most_lines:
        return None
    line = Line(tracer, getattr(callback, "__name__", "callback") + "#")
    line.must_finish = True
    note((SPAWN, current(), line, added.code, added.instruction))
    return line


def _note_callback_done(line: Line, future: Any) -> None:
    """Whoever has added it goes on behind it. That is luck, unless it was plain that the future is done."""
    note = state.note
    if note is not None and line.tracer is state.tracer:
        note((FINISH, line, True))
        where = frame_at(1)
        while where is not None and is_internal(where):
            where = where.f_back
        poll = poll_at(where, "add_done_callback", NOTHING)
        note((JOIN, current(), line, *place(where), poll or False, future._itc_token))


def _wait(original: Any) -> Any:
    def wait(fs: Any, timeout: float | None = None, return_when: str = base.ALL_COMPLETED) -> Any:
        told = original(fs, timeout, return_when)
        poll = None if timeout is None else poll_at(frame_at(1), "wait", NOTHING)
        for future in told.done:
            take_result(future, poll=poll)
        return told

    return wait


def _as_completed(original: Any) -> Any:
    def as_completed(fs: Any, timeout: float | None = None) -> Iterator[Any]:
        return _taken(original(fs, timeout))

    return as_completed


def _taken(futures: Iterator[Any]) -> Iterator[Any]:
    """The futures, each of which is taken, and kept no longer than by the library."""
    kept = []
    for future in futures:
        take_result(future)
        kept.append(future)
        del future
        yield kept.pop()


# Pools


def _put_pools(patches: Patches) -> None:
    patches.wrap(pools.ThreadPoolExecutor, "submit", _submit)
    patches.wrap(pools.ThreadPoolExecutor, "shutdown", _shutdown)
    patches.wrap(pools._WorkItem, "__init__", _item_begin)
    patches.wrap(pools._WorkItem, "run", _item_run)


def _submit(original: Any) -> Any:
    def submit(self: Any, fn: Any, /, *args: Any, **kwargs: Any) -> Any:
        local.submitting = self, getattr(fn, "__name__", "job")
        local.handed = handed_at(fn)
        try:
            future = original(self, fn, *args, **kwargs)
            if state.note is not None:
                begun(future, Outcome.FUTURE, frame_at(1))
            return future
        finally:
            local.submitting = local.handed = None

    return submit


def _item_begin(original: Any) -> Any:
    def __init__(self: Any, future: Any, *words: Any) -> None:
        original(self, future, *words)
        self._itc_handed = getattr(local, "handed", None)
        submitting = getattr(local, "submitting", None)
        if submitting is not None:
            pool, name = submitting
            self._itc_given = None if pool._max_workers == 1 else (weakref.ref(pool), name)
            if state.note is not None:
                _begin_job(self, future, pool, name)

    return __init__


def _begin_job(item: Any, future: Any, pool: Any, name: str) -> None:
    """The job is begun where it is submitted."""
    note, tracer = state.note, state.tracer
    if note is None or tracer is None:
        return
    number = tracer.next_job()
    if pool._max_workers == 1 or number > tracer.most_lines:
        item._itc_submitted = mark(SUBMIT, 5)
        item._itc_job = 0 if pool._max_workers == 1 else number
        return
    line = Line(tracer, name + "#")
    line.watch(future)
    future._itc_line = item._itc_line = line
    item._itc_is_after_worker = getattr(pool, "_initializer", None) is not None
    starter = starting(line)
    await_at_exit(line)
    note((SPAWN, starter, line, *place(frame_at(4))))
    jobs_of(pool).add(line)


def _line_of_item(item: Any) -> Line | None:
    """The task that the job is. One that was given before tracing began is a task of its own, too."""
    line: Line | None = item.__dict__.get("_itc_line")
    note, tracer, given = state.note, state.tracer, item.__dict__.get("_itc_given")
    pool = None if given is None else given[0]()
    if line is not None and line.tracer is tracer:
        return line
    if note is None or tracer is None or pool is None or item.__dict__.get("_itc_submitted") is not None:
        return None
    number = tracer.next_job()
    if number > tracer.most_lines:
        item._itc_job = number
        return None
    line = Line(tracer, given[1] + "#")
    line.watch(item.future)
    item.future._itc_line = item._itc_line = line
    item._itc_is_after_worker = False
    await_at_exit(line)
    note((SPAWN, tracer.parent_of_strangers, line, None, 0))
    jobs_of(pool).add(line)
    return line


def _item_run(original: Any) -> Any:
    def run(self: Any, *words: Any) -> Any:
        line = _line_of_item(self)
        if line is None:
            submitted = self.__dict__.get("_itc_submitted")
            number = self.__dict__.get("_itc_job", 0)
            if submitted is not None or number:
                worker = current()
                worker.job = LateJob(worker, number) if number else None
            take(submitted)
            _tell_called(self)
            try:
                return original(self, *words)
            finally:
                del self  # The traceback of what the job raises refers to this frame, and the job's future to that.
        ready = mark(WORKER) if self._itc_is_after_worker else None
        before = getattr(local, "line", None)
        line.must_finish = True
        enter(line)
        take(ready)
        _tell_called(self)
        try:
            return original(self, *words)
        finally:
            del self
            note = state.note
            if local.line is line:  # Else tracing has begun anew, and the thread has a line there.
                enter(before)
            if note is not None and line.tracer is state.tracer:
                note((FINISH, line, False))

    return run


def _tell_called(item: Any) -> None:
    """Tells of a method of a container that is the job itself."""
    handed = item.__dict__.get("_itc_handed")
    if handed is not None and hasattr(item, "fn"):
        called(item.fn, tuple(item.args), handed)


def _shutdown(original: Any) -> Any:
    def shutdown(self: Any, wait: bool = True, **named: Any) -> None:
        original(self, wait, **named)
        jobs: JobsOfPool | None = self.__dict__.get("_itc_jobs")
        if wait and jobs is not None:
            jobs.take(*place(frame_at(1)))

    return shutdown
