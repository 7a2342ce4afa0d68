"""Traces `trio`: each task is a task of the trace, and what trio promises puts tasks in order.

An instrument tells of each step of a task. Whoever wakes a task up comes before what that one does then, whatever it
has waited for, as trio has one call for that. What is handed over to whoever comes later is known by itself: events,
locks, permits, and the items of channels. Callbacks of a run belong to the line of its thread.
"""

from __future__ import annotations

import functools
import itertools
from _thread import get_ident
from collections.abc import Callable
from types import ModuleType
from typing import Any

from ..model.frames import frame_at, place
from ..model.lines import (
    CALL, CANCEL, FINISH, RESULT, SPAWN, TAKE_END, Line, Token, What, state,
)
from ..model.loop_runs import BEGINS, LOOPS, RUNS, LoopRun, begun_here, number_of_loop
from ..model.stretches import TURNS, leave
from ..record.noting import current, enter, failed, joining, local, mark, starting, take, take_at
from .base import Patches, like
from .by_identity import ByIdentity
from .handed_on import called, handed_at
from .later import once_imported
from .thread_jobs import Job, named_job

WAKE = What("wake", "wake up", "woken")
OF_RESULTS = "trio._threads"
"""The module whose callbacks bring results from threads."""
OF_TRIO_ITSELF = "<"
"""So begin the names of tasks by which trio runs others, as `<init>`."""
_turns = itertools.count(1)
_tasks: dict[int, Known] = {}
"""What is known of the tasks that have not ended, by their identities."""
_cancelled: ByIdentity[Token] = ByIdentity()
"""Where each scope was cancelled by a task."""
_contexts: list[Any] = []
"""What trio itself knows of the run of this thread."""
Hook = Callable[..., None]


def put(patches: Patches) -> None:
    once_imported("trio", lambda module: _put_all(patches, module))


def _put_all(patches: Patches, trio: ModuleType) -> None:
    run: Any = vars(trio._core)["_run"]
    _contexts.append(run.GLOBAL_RUN_CONTEXT)
    patches.wrap(run, "setup_runner", _with_instrument)
    patches.wrap(run.Nursery, "_nested_child_finished", protected(trio, _leave_nursery))
    patches.wrap(run.CancelScope, "cancel", _cancel)
    patches.wrap(run.Task, "_attempt_delivery_of_any_pending_cancel", _deliver_cancel)
    queue: Any = vars(trio._core)["_entry_queue"].EntryQueue
    patches.wrap(queue, "run_sync_soon", _run_sync_soon)
    for name, make in (("to_thread", _in_thread), ("from_thread", _from_thread)):
        module: Any = vars(trio)[name]
        patches.put(module, "run_sync", like(module.run_sync, make(module.run_sync)))
    patches.put(trio.from_thread, "run", like(trio.from_thread.run, _from_thread_awaited(trio.from_thread.run)))


def protected(trio: Any, make: Callable[[Any], Any]) -> Callable[[Any], Any]:
    """As trio's own functions of this kind, what stands for one is not interrupted from the keyboard."""
    return lambda original: trio.lowlevel.enable_ki_protection(make(original))


# Tasks


class Known:
    """What is known of a task: its line, and the places that its next step comes after."""

    __slots__ = ("line", "wakes", "has_begun", "notified")

    def __init__(self, line: Line) -> None:
        self.line = line
        self.wakes: list[Token] = []
        self.has_begun = False
        self.notified: Token | None = None
        """Where a condition was notified at which it waits."""



def known_of(task: Any) -> Known | None:
    known = _tasks.get(id(task))
    return known if known is not None and known.line.tracer is state.tracer else None


def current_task() -> Any:
    """The task that takes a step in this thread."""
    return next((context.task for context in _contexts if hasattr(context, "task")), None)


def _is_in_step() -> bool:
    """Whether a task takes a step in this thread, or a callback is called. Else trio looks for what is over."""
    return current_task() is not None


def comes_after(task: Any, token: Token | None) -> None:
    """The next step of the task comes after this place."""
    known = known_of(task)
    if known is not None and token is not None:
        known.wakes.append(token)


def _hook(function: Hook) -> Hook:
    """A fault of the package ends tracing. Of one that it is told, trio would drop the instrument."""

    @functools.wraps(function)
    def call(*words: Any) -> None:
        if state.note is not None:
            try:
                function(*words)
            except Exception as fault:
                failed(fault)

    return call


class Steps:
    """The instrument of one run."""

    def __init__(self) -> None:
        self._outside: Line | None = None
        self._stepping: Any = None
        """The task that takes a step now, if it has a line."""
        self._run: LoopRun | None = None

    @_hook
    def before_run(self) -> None:
        thread, token = get_ident(), mark(BEGINS)
        LOOPS[thread] = number_of_loop(self)
        if token is not None and thread not in RUNS:  # Else it is the guest of another loop.
            self._run = RUNS[thread] = LoopRun(token)

    @_hook
    def after_run(self) -> None:
        thread, run = get_ident(), self._run
        LOOPS.pop(thread, None)
        if run is not None:
            RUNS.pop(thread, None)
            run.leave(current(), place(frame_at(1)))

    @_hook
    def task_spawned(self, task: Any) -> None:
        note = state.note
        if note is None or task.name.startswith(OF_TRIO_ITSELF):
            return
        line = Line(state.tracer, task.name.rpartition(".")[2] + "#")
        line.watch(task)
        note((SPAWN, starting(line), line, *place(frame_at(1))))
        begun_here(line)
        _tasks[id(task)] = Known(line)

    @_hook
    def task_scheduled(self, task: Any) -> None:
        """Whoever takes a step now has woken the task."""
        known = known_of(task)
        if known is not None and known.has_begun and self._stepping is not task and not Quiet.depth and _is_in_step():
            comes_after(task, mark(WAKE))

    @_hook
    def before_task_step(self, task: Any) -> None:
        TURNS[get_ident()] = next(_turns)
        known = known_of(task)
        if known is None:
            leave()
            return
        known.has_begun = True
        self._outside, self._stepping = getattr(local, "line", None), task
        enter(known.line)
        wakes, known.wakes = known.wakes, []
        for token in wakes:
            take_at(token, task.coro.cr_frame)

    @_hook
    def after_task_step(self, task: Any) -> None:
        if self._stepping is None:
            leave()
            return
        self._stepping = None
        enter(self._outside)

    @_hook
    def task_exited(self, task: Any) -> None:
        known, note = _tasks.pop(id(task), None), state.note
        if known is not None and note is not None and known.line.tracer is state.tracer:
            note((FINISH, known.line, False))
            task.parent_nursery.__dict__.setdefault("_itc_lines", []).append(known.line)


class Quiet:
    """While a lock is released, or a permit, who wakes up is told by that."""

    depth = 0

    def __enter__(self) -> None:
        Quiet.depth += 1

    def __exit__(self, *_: object) -> None:
        Quiet.depth -= 1


def _with_instrument(original: Any) -> Any:
    def setup_runner(clock: Any, instruments: Any, *words: Any, **named: Any) -> Any:
        return original(clock, [Steps(), *instruments], *words, **named)

    return setup_runner


def _leave_nursery(original: Any) -> Any:
    """Whoever leaves a nursery comes after all tasks that have ended in it."""

    async def _nested_child_finished(self: Any, fault: Any) -> Any:
        try:
            return await original(self, fault)
        finally:
            note = state.note
            for line in self.__dict__.pop("_itc_lines", ()):
                if note is not None and line.tracer is state.tracer:
                    note((TAKE_END, joining(line), line, *place(frame_at(1))))

    return _nested_child_finished


# Cancelling


def _cancel(original: Any) -> Any:
    def cancel(self: Any, *words: Any, **named: Any) -> None:
        token = mark(CANCEL) if not self._cancel_called and _is_in_step() else None
        if token is not None:  # Else a deadline has passed.
            _cancelled.put(self, token)
        original(self, *words, **named)

    return cancel


def _deliver_cancel(original: Any) -> Any:
    """The task sees by itself that a scope around it was cancelled, as far as none shields it."""

    def _attempt_delivery_of_any_pending_cancel(self: Any) -> None:
        status = self._cancel_status if state.note is not None and _cancelled else None
        if status is not None and self._abort_func is not None and status.effectively_cancelled:
            while status is not None:
                comes_after(self, _cancelled.get(status._scope))
                status = None if status._scope._shield else status.parent
        original(self)

    return _attempt_delivery_of_any_pending_cancel


# Threads


def _in_thread(original: Any) -> Any:
    async def run_sync(sync_fn: Any, *args: Any, **named: Any) -> Any:
        if state.note is None or not callable(sync_fn):
            return await original(sync_fn, *args, **named)
        job = Job(sync_fn)
        call = named_job(sync_fn, lambda function: functools.partial(job.run, function))
        try:
            return await original(call, *args, **named)
        finally:
            job.was_awaited()

    return run_sync


class _Call:
    """A function that a thread has the run of trio call: where it was asked for, and where it has ended."""

    __slots__ = ("token", "end")

    def __init__(self) -> None:
        self.token = mark(CALL)
        self.end: Token | None = None

    def of(self, function: Any) -> Any:
        def call(*args: Any, **named: Any) -> Any:
            take(self.token)
            called(function, args, handed_at(function))
            try:
                return function(*args, **named)
            finally:
                self.end = mark(RESULT)

        return call

    def of_awaited(self, function: Any) -> Any:
        async def call(*args: Any, **named: Any) -> Any:
            take(self.token)
            try:
                return await function(*args, **named)
            finally:
                self.end = mark(RESULT)

        return call


def _from_thread(original: Any) -> Any:
    return _asking(original, _Call.of)


def _from_thread_awaited(original: Any) -> Any:
    return _asking(original, _Call.of_awaited)


def _asking(original: Any, make: Callable[[_Call, Any], Any]) -> Any:
    def run(fn: Any, *args: Any, **named: Any) -> Any:
        if state.note is None or not callable(fn):
            return original(fn, *args, **named)
        asked = _Call()
        try:
            return original(named_job(fn, functools.partial(make, asked)), *args, **named)
        finally:
            take(asked.end)

    return run


class _Soon:
    """What is called soon, after whoever asked for it. Equal functions stay equal, as one of them may be enough."""

    __slots__ = ("_function", "_token", "_handed")

    def __init__(self, function: Any, token: Token | None) -> None:
        self._function = function
        self._token = token
        self._handed = handed_at(function, 2)

    def __call__(self, *args: Any) -> Any:
        take(self._token)
        called(self._function, args, self._handed)
        if getattr(self._function, "__module__", None) == OF_RESULTS:
            with Quiet():  # It brings a result, which is known by itself.
                return self._function(*args)
        return self._function(*args)

    def __eq__(self, other: object) -> bool:
        return type(other) is _Soon and bool(self._function == other._function)

    def __hash__(self) -> int:
        return hash(self._function)


def _run_sync_soon(original: Any) -> Any:
    def run_sync_soon(self: Any, sync_fn: Any, *args: Any, **named: Any) -> None:
        given = sync_fn if state.note is None or not callable(sync_fn) else _Soon(sync_fn, mark(CALL))
        original(self, given, *args, **named)

    return run_sync_soon
