"""Traces `asyncio`: each task is a task of the trace, and what asyncio promises puts tasks in order.

Tasks of one loop take turns, but in which order is nobody's promise: that a task runs between two awaits of another is
no order. Callbacks of a loop belong to the line of the loop's thread.
"""

from __future__ import annotations

import asyncio
import asyncio.base_events as base_events
import asyncio.futures as futures_module
import asyncio.locks as locks
import asyncio.queues as queues_module
import asyncio.tasks as tasks
import functools
import types
from _thread import get_ident
from collections import deque
from collections.abc import Callable, Iterator
from types import FrameType
from typing import Any

from .handed_on import called, watched_place
from ..model.lines import (
    BARRIER, CALL, CALLBACK, CALLED, CANCEL, EVENT, NOTIFY, QUEUE, RESULT, SEMAPHORE, SPAWN, TAKE, TAKE_END,
    Line, Token, state,
)
from ..model.lock_identity import LockIdentity
from ..model.loop_runs import BEGINS, RUNS, LoopRun, begun_here, take_step
from ..record.noting import current, joining, line_of_task, mark, starting, take, without_own_frame
from ..model.frames import frame_at, is_internal, place
from ..model.stretches import STRETCHES, TURN_NUMBERS, TURNS, leave
from . import chains
from .base import Patches, like, name_as, named_like
from .futures import FOR_THE_PROGRAM, is_settled_by_source, take_any
from .left_behind import Outcome, begun, stays, taken
from .locks import OnePermit, gave, is_of_condition, took
from .queues import add_stack, has_few_places, is_followed, items_of, note_done, room_of, take_done
from .waiters import Waiters

_PlainTask: Any = tasks.Task
_PlainFuture: Any = futures_module.Future
_PlainGathering: Any = tasks._GatheringFuture  # type: ignore[attr-defined]
_current_task = asyncio.current_task
_running_loop = asyncio.events._get_running_loop
_spawned: dict[int, tuple[Any, Line]] = {}
"""The lines of coroutines that another thread has handed to a loop, until their tasks are made."""
_named: dict[int, str] = {}
"""The names that tasks of coroutines are to have, while their tasks are made."""


def put(patches: Patches) -> None:
    _put_tasks(patches)
    _put_loops(patches)
    _put_locks(patches)
    _put_timeouts(patches)
    _put_events(patches)
    _put_semaphores(patches)
    if hasattr(locks, "Barrier"):
        _put_barriers(patches)
    _put_queues(patches)


class _LikePlain(type):
    """Futures and tasks that were made otherwise are instances too, and their classes subclasses."""

    def __instancecheck__(cls, instance: object) -> bool:
        return isinstance(instance, _plain_of(cls)) if _plain_of(cls) else type.__instancecheck__(cls, instance)

    def __subclasscheck__(cls, subclass: type) -> bool:
        return issubclass(subclass, _plain_of(cls)) if _plain_of(cls) else type.__subclasscheck__(cls, subclass)


name_as(_LikePlain, "type", "builtins")


def _plain_of(cls: type) -> Any:
    """The library's class that a traced one stands for. A class of the program stands for itself."""
    return vars(cls).get("_itc_plain")


# Tasks and futures


def _waits_inside(frame: Any) -> bool:
    """Whether asyncio itself looks at a future, on its way to the loop: that is no order for anybody's task."""
    if not is_internal(frame) or frame.f_code in _ON_BEHALF:
        return False
    loop = _running_loop()
    return loop is None or _current_task(loop) is None


def _awaiting(plain: Any) -> Any:
    """An `__await__` after which the awaiting task comes after the future's result."""

    is_done = _PlainFuture.done

    def __await__(self: Any) -> Iterator[Any]:
        waits_for = () if is_done(self) else (self, *getattr(self, "_itc_waits_for", ()))
        try:
            result = yield from plain.__await__(self)
        except BaseException as fault:
            without_own_frame(fault)
            raise
        finally:
            if is_done(self) and state.note is not None:
                take_any(self)
                for one in waits_for:  # Their callbacks were called before the one that goes on here.
                    _take_called(one)
                    del one
            del self, waits_for  # The future's exception refers to this frame.
        return result

    return __await__


def _looking(plain: Any, name: str) -> Any:
    original, is_done = getattr(plain, name), _PlainFuture.done

    def look(self: Any) -> Any:
        is_seen = is_done(self)
        try:
            told = original(self)
            is_seen = True  # It may have come from another thread in between.
            return told
        except BaseException as fault:
            without_own_frame(fault)
            raise
        finally:
            if is_seen and state.note is not None and not _waits_inside(frame_at(1)):
                take_any(self)
            del self  # The future's exception refers to this frame.

    return like(original, look)


_NOT_GIVEN: Any = object()


def _adding(plain: Any) -> Any:
    """An `add_done_callback` whose callbacks come after whoever added them."""
    original = plain.add_done_callback

    def add_done_callback(self: Any, fn: Any, /, *, context: Any = _NOT_GIVEN) -> None:
        if getattr(self, "_itc_left", None) is not None:
            (stays if _is_cancelled_at_end(frame_at(1)) else taken)(self)
        if state.note is not None and not is_internal(frame_at(1)):
            self._itc_callbacks = [*self._itc_callbacks, (fn, mark(CALLBACK))]
            if type(self._itc_called) is not list:
                self._itc_called = []
        if context is _NOT_GIVEN:  # The library takes the one of now, and for None the one of then.
            original(self, fn)
        else:
            original(self, fn, context=context)

    return like(original, add_done_callback)


def _is_cancelled_at_end(frame: FrameType | None) -> bool:
    """Whether `asyncio.run` waits for what is left, which it has cancelled."""
    caller = None if frame is None else frame.f_back
    return caller is not None and caller.f_code.co_name == "_cancel_all_tasks"


def _removing(plain: Any) -> Any:
    original = plain.remove_done_callback

    def remove_done_callback(self: Any, fn: Any, /) -> int:
        if self._itc_callbacks:
            self._itc_callbacks = [added for added in self._itc_callbacks if added[0] != fn]
        return int(original(self, fn))

    return like(original, remove_done_callback)


def _take_called(future: Any) -> None:
    """From now on the current task comes after the callbacks of the future that were called."""
    for token in getattr(future, "_itc_called", ()):
        take(token, 3)


def _seeing(plain: Any, name: str) -> Any:
    """A `done` or a `cancelled` after which whoever sees that it is so comes after the result."""
    original = getattr(plain, name)

    def see(self: Any) -> bool:
        is_so = bool(original(self))
        if is_so and state.note is not None and not is_internal(frame_at(1)):
            take_any(self)
        return is_so

    return like(original, see)


class TracedTask(_PlainTask, metaclass=_LikePlain):  # type: ignore[misc]
    """A task that is begun by whoever makes it, and awaited by whoever takes its result."""

    _itc_plain = _PlainTask
    _itc_callbacks: list[Any] = []
    _itc_called: Any = ()
    _itc_timeouts: tuple[Any, ...] = ()
    """The timeouts that it is within."""

    def __init__(self, coro: Any, **named: Any) -> None:
        self._itc_line = _begin_task(self, coro, named.get("name"), named.get("loop"))
        self._itc_called = []
        super().__init__(coro, **named)
        leave()  # A task that begins at once has run up to its first wait.

    def cancel(self, msg: Any = None) -> bool:
        is_cancelled = bool(super().cancel(msg))
        line = line_of_task(self) if is_cancelled else None
        if line is not None:
            _tell_cancelled(line)
        return is_cancelled

    __await__ = _awaiting(_PlainTask)
    __iter__ = __await__
    result = _looking(_PlainTask, "result")
    exception = _looking(_PlainTask, "exception")
    done = _seeing(_PlainTask, "done")
    cancelled = _seeing(_PlainTask, "cancelled")
    add_done_callback = _adding(_PlainTask)
    remove_done_callback = _removing(_PlainTask)


def _tell_cancelled(line: Line) -> None:
    """The task does not run now. When it goes on, it comes after whoever cancelled it."""
    note, token = state.note, mark(CANCEL, 3)
    if note is not None and token is not None and token.line is not line and line.tracer is state.tracer:
        line.section = None
        note((TAKE, line, token, token.code, token.instruction))


def _begin_task(task: Any, coro: Any, name: Any, loop: Any) -> Line | None:
    note = state.note
    if note is None:
        return None
    _, line = _spawned.pop(id(coro), (None, None))
    name = _named.pop(id(coro), name)
    if line is None and (line := _spawn(coro, name, 3)) is not None and (loop is None or loop is _running_loop()):
        begun_here(line)  # A task of another loop does nothing in this run.
    if line is not None:
        line.watch(task)
        begun(task, Outcome.TASK, frame_at(1))
    return line


def _spawn(coro: Any, name: Any, depth: int) -> Line | None:
    note = state.note
    if note is None:
        return None
    line = Line(state.tracer, str(name) if name else getattr(coro, "__name__", "task") + "#")
    note((SPAWN, starting(line), line, *place(frame_at(depth))))
    return line


class TracedFuture(_PlainFuture, metaclass=_LikePlain):  # type: ignore[misc]
    """A future whose result is a message from who sets it to who takes it."""

    _itc_plain = _PlainFuture
    _itc_token = None
    _itc_sources: tuple[Any, ...] = ()
    _itc_callbacks: list[Any] = []
    _itc_called: Any = ()

    def set_result(self, result: Any) -> None:
        token = None if self._itc_sources else mark(RESULT)
        super().set_result(result)
        self._itc_token = token  # Whoever comes too late gives no result.

    def set_exception(self, exception: Any) -> None:
        token = None if self._itc_sources else mark(RESULT)
        super().set_exception(exception)
        self._itc_token = token

    def cancel(self, msg: Any = None) -> bool:
        token = mark(RESULT)
        is_cancelled = bool(super().cancel(msg))
        if is_cancelled and not is_settled_by_source(self):
            self._itc_token = token
        return is_cancelled

    __await__ = _awaiting(_PlainFuture)
    __iter__ = __await__
    result = _looking(_PlainFuture, "result")
    exception = _looking(_PlainFuture, "exception")
    done = _seeing(_PlainFuture, "done")
    cancelled = _seeing(_PlainFuture, "cancelled")
    add_done_callback = _adding(_PlainFuture)
    remove_done_callback = _removing(_PlainFuture)


class TracedGathering(_PlainGathering, metaclass=_LikePlain):  # type: ignore[misc]
    """The future of a gathering: whoever takes its result comes after all that were gathered."""

    _itc_plain = _PlainGathering
    _itc_token = None
    _itc_callbacks: list[Any] = []
    _itc_called: Any = ()

    def __init__(self, children: Any, **named: Any) -> None:
        super().__init__(children, **named)
        self._itc_waits_for = [child for child in children if not child.done()]

    @property
    def _itc_sources(self) -> list[Any]:
        error = None if _PlainGathering.cancelled(self) else _PlainGathering.exception(self)
        done = [child for child in self._children if child.done()]
        if error is None:
            return done
        return [child for child in done if not child.cancelled() and type(child).__mro__ and _error_of(child) is error]

    __await__ = _awaiting(_PlainGathering)
    __iter__ = __await__
    result = _looking(_PlainGathering, "result")
    exception = _looking(_PlainGathering, "exception")
    done = _seeing(_PlainGathering, "done")
    cancelled = _seeing(_PlainGathering, "cancelled")
    add_done_callback = _adding(_PlainGathering)
    remove_done_callback = _removing(_PlainGathering)


def _error_of(future: Any) -> Any:
    plain = _PlainTask if isinstance(future, _PlainTask) else _PlainFuture
    return plain.exception(future)


for _traced, _name in ((TracedTask, "Task"), (TracedFuture, "Future"), (TracedGathering, "_GatheringFuture")):
    _traced.__name__ = _traced.__qualname__ = _name
    _traced.__module__ = "asyncio"


def _put_tasks(patches: Patches) -> None:
    patches.replace(asyncio, "Task", TracedTask)
    patches.put(tasks, "Task", TracedTask)
    patches.replace(asyncio, "Future", TracedFuture)
    patches.put(tasks, "_GatheringFuture", TracedGathering)
    patches.wrap(base_events.BaseEventLoop, "create_task", _naming)
    patches.replace(asyncio, "create_task", like(tasks.create_task, _naming(tasks.create_task)))
    patches.wrap(base_events.BaseEventLoop, "create_future", _create_future)
    patches.wrap(futures_module, "wrap_future", _wrap_future)
    patches.replace(asyncio, "wrap_future", futures_module.wrap_future)
    patches.wrap(futures_module, "_chain_future", _chain_future)
    patches.replace(asyncio, "shield", like(tasks.shield, _shield(tasks.shield)))
    patches.replace(asyncio, "wait", like(tasks.wait, _wait(tasks.wait)))
    handed = like(tasks.run_coroutine_threadsafe, _run_coroutine_threadsafe(tasks.run_coroutine_threadsafe))
    patches.replace(asyncio, "run_coroutine_threadsafe", handed)
    if hasattr(asyncio, "TaskGroup"):
        patches.wrap(asyncio.TaskGroup, "create_task", _group_create_task)
        patches.wrap(asyncio.TaskGroup, "__aexit__", _group_leave)


_ON_BEHALF = {base_events.BaseEventLoop.run_until_complete.__code__}
"""Code of asyncio that takes a result for the thread that called it."""
FOR_THE_PROGRAM.update((futures_module.wrap_future.__code__, tasks.shield.__code__))


def _naming(original: Any) -> Any:
    """A maker of tasks that tells the task's name while it makes it; some set the name only afterwards."""

    def create_task(*words: Any, name: Any = None, **named: Any) -> Any:
        if name is None or state.note is None:
            return original(*words, name=name, **named)
        coroutine = id(named["coro"] if "coro" in named else words[-1] if words else None)
        _named[coroutine] = str(name)
        try:
            return original(*words, name=name, **named)
        finally:
            _named.pop(coroutine, None)

    return create_task


def _create_future(original: Any) -> Any:
    def create_future(self: Any) -> Any:
        frame = frame_at(1)
        if frame is not None and is_internal(frame) and frame.f_code not in FOR_THE_PROGRAM:
            return original(self)
        return TracedFuture(loop=self)

    return create_future


def _wrap_future(original: Any) -> Any:
    def wrap_future(future: Any, *, loop: Any = None) -> Any:
        made = original(future, loop=loop)
        if made is not future and isinstance(made, TracedFuture):
            made._itc_sources = (future,)
        return made

    return wrap_future


def _chain_future(original: Any) -> Any:
    def _chain_future(source: Any, destination: Any) -> None:
        if not asyncio.isfuture(destination):
            destination._itc_sources = (source,)
        original(source, destination)

    return _chain_future


def _shield(original: Any) -> Any:
    def shield(arg: Any) -> Any:
        inner = asyncio.ensure_future(arg) if asyncio.isfuture(arg) or asyncio.iscoroutine(arg) else arg
        outer = original(inner)
        if outer is not inner and type(outer) is TracedFuture:
            outer._itc_sources = (inner,)
        return outer

    return shield


def _wait(original: Any) -> Any:
    async def wait(fs: Any, **named: Any) -> Any:
        done, pending = await original(fs, **named)
        for future in done:
            take_any(future)
            _take_called(future)
        return done, pending

    return wait


def _run_coroutine_threadsafe(original: Any) -> Any:
    def run_coroutine_threadsafe(coro: Any, loop: Any) -> Any:
        line = _spawn(coro, None, 2) if asyncio.iscoroutine(coro) else None
        if line is not None:
            _spawned[id(coro)] = coro, line
        return original(coro, loop)

    return run_coroutine_threadsafe


def _group_create_task(original: Any) -> Any:
    make = _naming(original)

    def create_task(self: Any, coro: Any, **named: Any) -> Any:
        task = make(self, coro, **named)
        line = getattr(task, "_itc_line", None)
        if line is not None:
            task._itc_in_group = [line]  # It has another one if tracing ends and begins meanwhile.
            self.__dict__.setdefault("_itc_lines", []).append((task._itc_in_group, getattr(task, "_itc_called", ())))
        return task

    return create_task


def _group_leave(original: Any) -> Any:
    async def __aexit__(self: Any, *words: Any) -> Any:
        try:
            return await original(self, *words)
        except BaseException as fault:
            without_own_frame(fault)
            raise
        finally:
            note = state.note
            if note is not None:
                for (line,), calls in self.__dict__.pop("_itc_lines", ()):
                    if line.tracer is state.tracer:
                        note((TAKE_END, joining(line), line, *place(frame_at(1))))
                    for token in calls:
                        take(token)

    return __aexit__


# Callbacks of loops


def _put_loops(patches: Patches) -> None:
    patches.wrap(asyncio.events.Handle, "_run", _run_handle)
    loop = base_events.BaseEventLoop
    patches.wrap(loop, "run_forever", _run_forever)
    for name in ("call_soon", "call_soon_threadsafe"):
        patches.wrap(loop, name, _call)
    patches.wrap(loop, "call_at", _call_at)


def _run_handle(original: Any) -> Any:
    """Each callback of a loop is a turn, and the stretches of what it runs begin and end there."""

    def _run(self: Any) -> Any:
        if state.note is None:
            return original(self)
        thread = get_ident()
        if not _begin_turn(self._callback):
            STRETCHES.pop(thread, None)
            TURNS[thread] = next(TURN_NUMBERS)
            _be_in_run(thread)
            take_step(_line_of_step(self._callback))
        try:
            return original(self)
        finally:
            del self  # Frames of the callback refer to this one, and the handle to what the callback is given.
            STRETCHES.pop(thread, None)

    return _run


def _no_turn(_: Any) -> bool:
    """Without the helper in C each turn begins in Python."""
    return False


def _is_known_step(callback: Any) -> bool:
    return id(type(callback)) in _step_kinds


_begin_turn: Callable[[Any], bool] = _no_turn
"""Begins the turn of a callback, if that is the step of a task that the run of the loop knows. Gives whether it did."""
_is_plain_step: Callable[[Any], bool] = _is_known_step
"""Whether asyncio itself goes on by a callback, as far as that is plain to see."""


def be_quick(quick: Any) -> None:
    """From here on most turns of loops begin in C."""
    global _begin_turn, _is_plain_step
    quick.know_loops(
        runs=RUNS, turn_numbers=TURN_NUMBERS, step_kinds=_step_kinds, run=LoopRun, future=_PlainFuture, task=_PlainTask,
    )
    _begin_turn, _is_plain_step = quick.begin_turn, quick.is_plain_step


def _be_in_run(thread: int) -> None:
    """If tracing has begun within the run of the thread's loop, the run begins here."""
    run = RUNS.get(thread)
    if run is None or run.token.line.tracer is not state.tracer:
        token = mark(BEGINS)
        if token is not None:
            RUNS[thread] = LoopRun(token)


def _line_of_step(callback: Any) -> Line | None:
    """The line of the task that goes on by this callback, if it is one of asyncio itself."""
    kind = type(callback)
    if kind is types.BuiltinMethodType or kind is types.MethodType or _name_of(kind) in _STEPS:
        task = callback.__self__
        return line_of_task(task) if issubclass(type(task), _PlainTask) else None
    return None


def _run_forever(original: Any) -> Any:
    """Behind the run of a loop its thread goes on after all that the loop's tasks did by then,
    and they after what it does in between."""

    def run_forever(self: Any) -> Any:
        if _running_loop() is not None:
            return original(self)
        token = mark(BEGINS)
        if token is not None:
            RUNS[get_ident()] = LoopRun(token)
        try:
            return original(self)
        finally:
            run = RUNS.pop(get_ident(), None)
            if run is not None and state.note is not None:
                run.leave(current(), place(frame_at(1)))

    return run_forever


_PLUMBING = frozenset({"asyncio", "_asyncio", "concurrent", "itc_trace", "twisted"})
_STEPS = frozenset({"TaskStepMethWrapper", "TaskWakeupMethWrapper"})
_name_of: Any = vars(type)["__name__"].__get__
"""The name of a type, whatever its metaclass says."""
_step_kinds: dict[int, type] = {}
"""The types of these names that were met, by their identities: the hash of a type may be the program's."""


def _is_the_programs(callback: Any) -> bool:
    """Whether it is no step by which asyncio itself goes on: a function of the program,
    or a method of an object that it has."""
    while type(callback) is functools.partial:
        callback = callback.func
    kind = type(callback)
    if kind is types.BuiltinMethodType:
        return not issubclass(type(callback.__self__), _PlainFuture)
    if kind is types.MethodType:
        function = callback.__func__
        return _is_outside(function) or not getattr(function, "__name__", "_").startswith("_")
    if kind is types.FunctionType:
        return _is_outside(callback)
    if _name_of(kind) not in _STEPS:
        return True
    _step_kinds[id(kind)] = kind
    return False


def _is_outside(function: Any) -> bool:
    module = getattr(function, "__module__", None)
    return not isinstance(module, str) or module.partition(".")[0] not in _PLUMBING


def _after_caller(callback: Any, args: tuple[Any, ...]) -> Any:
    """The callback, called after whoever asked for it,
    and after whoever added it to the future that it is called with."""
    if state.note is None or not callable(callback) or not _is_the_programs(callback):
        return callback
    token = mark(CALL, 2)
    if token is None:
        return callback
    future = args[0] if args and issubclass(type(args[0]), _PlainFuture) else None
    added = _added(future, callback)

    given, chain = added or token, chains.asked_for(token.code, token.instruction)

    def call(*args: Any) -> Any:
        take(token)
        take(added)
        called(callback, args, watched_place(given.code, given.instruction))
        before = chains.begin(chain)
        try:
            return callback(*args)
        finally:
            chains.end(before)
            if added is not None:
                future._itc_called.append(mark(CALLED))

    return named_like(callback, call)


def _added(future: Any, callback: Any) -> Token | None:
    """The place where the callback was added to the future, by the program itself."""
    for entry in getattr(future, "_itc_callbacks", ()):
        if entry[0] is callback or entry[0] == callback:
            future._itc_callbacks = [one for one in future._itc_callbacks if one is not entry]
            token: Token | None = entry[1]
            return token
    return None


def _call(original: Any) -> Any:
    def call(self: Any, callback: Any, *args: Any, context: Any = None) -> Any:
        if state.note is not None and not _is_plain_step(callback):
            callback = _after_caller(callback, args)
        return original(self, callback, *args, context=context)

    return call


def _call_at(original: Any) -> Any:
    def call_at(self: Any, when: Any, callback: Any, *args: Any, context: Any = None) -> Any:
        if state.note is not None and not _is_plain_step(callback):
            callback = _after_caller(callback, args)
        return original(self, when, callback, *args, context=context)

    return call_at


# Locks and conditions


def _put_locks(patches: Patches) -> None:
    for name in ("_itc_token", "_itc_identity", "_itc_holder"):
        patches.put(locks.Lock, name, None)
    patches.put(locks.Lock, "_itc_is_silent", False)
    patches.wrap(locks.Lock, "acquire", _lock_acquire)
    patches.wrap(locks.Lock, "release", _lock_release)
    patches.wrap(locks.Lock, "__init__", _lock_begin)
    patches.wrap(locks.Condition, "__init__", _condition_begin)
    patches.wrap(locks.Condition, "notify", _condition_notify)
    patches.wrap(locks.Condition, "wait", _condition_wait)


def _lock_begin(original: Any) -> Any:
    def __init__(self: Any, **named: Any) -> None:
        original(self, **named)
        self._itc_identity = _identity(frame_at(1))

    return __init__


def _lock_acquire(original: Any) -> Any:
    async def acquire(self: Any) -> Any:
        told = await original(self)
        if state.note is not None and _is_told_of(self):
            took(self, not _has_limit())
        return told

    return acquire


def _lock_release(original: Any) -> Any:
    def release(self: Any) -> None:
        if state.note is not None and self._locked and _is_told_of(self):
            gave(self)
        original(self)

    return release


def _is_told_of(lock: Any) -> bool:
    if lock._itc_is_silent:
        return False
    if lock._itc_identity is None:
        lock._itc_identity = _identity(None)
    return True


def _identity(maker: FrameType | None) -> LockIdentity:
    made = LockIdentity("asyncio.Lock", maker)
    made.is_inside = True
    return made


def _condition_begin(original: Any) -> Any:
    def __init__(self: Any, lock: Any = None, **named: Any) -> None:
        original(self, lock, **named)
        frame = frame_at(1)
        if not is_internal(frame):
            self._waiters = Waiters()
            is_of_condition(self._lock, frame)
        elif lock is None:
            self._lock._itc_is_silent = True

    return __init__


def _condition_notify(original: Any) -> Any:
    def notify(self: Any, n: int = 1) -> None:
        waiters = self._waiters
        is_of_condition(self._lock)
        if waiters and type(waiters) is Waiters and self.locked():
            waiters.are_notified(mark(NOTIFY), n)
        original(self, n)

    return notify


def _condition_wait(original: Any) -> Any:
    async def wait(self: Any) -> Any:
        is_of_condition(self._lock)
        try:
            return await original(self)
        finally:
            if type(self._waiters) is Waiters:
                take(self._waiters.woken())

    return wait


# Timeouts


def _put_timeouts(patches: Patches) -> None:
    timeout = getattr(asyncio, "Timeout", None)
    if timeout is not None:
        patches.wrap(timeout, "__aenter__", _enter_timeout)
        patches.wrap(timeout, "__aexit__", _leave_timeout)


_are_there_timeouts = False
"""Whether a task has ever been within one."""


def _enter_timeout(original: Any) -> Any:
    async def __aenter__(self: Any) -> Any:
        global _are_there_timeouts
        _are_there_timeouts = True
        entered = await original(self)
        task: Any = _current_task()
        if hasattr(task, "_itc_timeouts"):
            task._itc_timeouts = (*task._itc_timeouts, self)
        return entered

    return __aenter__


def _leave_timeout(original: Any) -> Any:
    async def __aexit__(self: Any, *fault: Any) -> Any:
        task: Any = _current_task()
        if hasattr(task, "_itc_timeouts"):
            task._itc_timeouts = tuple(one for one in task._itc_timeouts if one is not self)
        try:
            return await original(self, *fault)
        except BaseException as late:
            without_own_frame(late)
            raise

    return __aexit__


def _has_limit() -> bool:
    """Whether a timeout ends what the current task waits for."""
    if not _are_there_timeouts:
        return False
    timeouts = getattr(_current_task(), "_itc_timeouts", ())
    return bool(timeouts) and any(one.when() is not None for one in timeouts)


# Events


def _put_events(patches: Patches) -> None:
    event = locks.Event
    patches.put(event, "_itc_token", None)
    patches.put(event, "_itc_is_silent", False)
    patches.wrap(event, "__init__", _event_begin)
    patches.wrap(event, "set", _event_set)
    patches.wrap(event, "wait", _event_wait)
    patches.wrap(event, "is_set", _event_is_set)


def _event_begin(original: Any) -> Any:
    def __init__(self: Any, **named: Any) -> None:
        original(self, **named)
        self._itc_is_silent = is_internal(frame_at(1))
        if not self._itc_is_silent:
            self._waiters = Waiters()

    return __init__


def _event_set(original: Any) -> Any:
    def set(self: Any) -> None:
        if state.note is not None and not self._value and not self._itc_is_silent:
            self._itc_token = mark(EVENT)
            self._waiters = Waiters.of(self._waiters)
            self._waiters.are_notified(self._itc_token, len(self._waiters))
        original(self)

    return set


def _event_wait(original: Any) -> Any:
    """Whoever has waited comes after the call that woke it, also if another one has set the event anew meanwhile."""

    async def wait(self: Any) -> Any:
        is_set, token = self._value, self._itc_token
        if state.note is not None and not self._itc_is_silent:
            self._waiters = Waiters.of(self._waiters)
        try:
            told = await original(self)
        finally:
            if not is_set:
                known = self._waiters.woken() if type(self._waiters) is Waiters else None
                token = known or self._itc_token  # Tracing may have begun meanwhile.
        take(token)
        return told

    return wait


def _event_is_set(original: Any) -> Any:
    def is_set(self: Any) -> bool:
        is_on = bool(original(self))
        if is_on and self._itc_token is not None and not is_internal(frame_at(1)):
            take(self._itc_token)
        return is_on

    return is_set


# Semaphores


def _put_semaphores(patches: Patches) -> None:
    patches.wrap(locks.Semaphore, "__init__", _semaphore_begin)
    patches.wrap(locks.Semaphore, "acquire", _semaphore_acquire)
    patches.wrap(locks.Semaphore, "release", _semaphore_release)


def _semaphore_begin(original: Any) -> Any:
    def __init__(self: Any, value: int = 1, **named: Any) -> None:
        original(self, value, **named)
        if value == 1:
            self._itc_permit = OnePermit("asyncio.Semaphore", frame_at(1))
        elif value <= 65536:
            self._itc_permits = deque([None] * value)

    return __init__


def _semaphore_acquire(original: Any) -> Any:
    async def acquire(self: Any) -> Any:
        told = await original(self)
        permits, permit = self.__dict__.get("_itc_permits"), self.__dict__.get("_itc_permit")
        if permits:
            take(permits.popleft())
        elif permit is not None and state.note is not None:
            took(permit, not _has_limit())
        return told

    return acquire


def _semaphore_release(original: Any) -> Any:
    def release(self: Any) -> None:
        permits, permit = self.__dict__.get("_itc_permits"), self.__dict__.get("_itc_permit")
        if permit is not None and permit.becomes_more(self._value):
            permits = self._itc_permits = permit.as_permits(self._value)
            del self._itc_permit
        if permits is not None:
            permits.append(mark(SEMAPHORE))
        elif permit is not None and state.note is not None:
            gave(permit)
        elif permit is not None:
            permit.is_released()
        original(self)

    return release


# Barriers


def _put_barriers(patches: Patches) -> None:
    barrier = locks.Barrier
    patches.put(barrier, "_itc_arrived", ())
    patches.put(barrier, "_itc_opened", None)
    patches.wrap(barrier, "_block", _barrier_block)
    patches.wrap(barrier, "_release", _barrier_release)
    patches.wrap(barrier, "_wait", _barrier_wait)


def _barrier_block(original: Any) -> Any:
    async def _block(self: Any) -> None:
        await original(self)
        if self._count == 0:
            self._itc_arrived = []
        if state.note is not None and type(self._itc_arrived) is list:
            self._itc_arrived.append(mark(BARRIER))

    return _block


def _barrier_release(original: Any) -> Any:
    async def _release(self: Any) -> None:
        for token in self._itc_arrived:
            take(token)
        self._itc_arrived = ()
        self._itc_opened = mark(BARRIER)
        await original(self)

    return _release


def _barrier_wait(original: Any) -> Any:
    async def _wait(self: Any) -> None:
        await original(self)
        take(self._itc_opened)

    return _wait


# Queues


def _put_queues(patches: Patches) -> None:
    queue = queues_module.Queue
    patches.put(queue, "_itc_items", None)
    patches.put(queue, "_itc_room", None)
    patches.wrap(queue, "put_nowait", _put_nowait)
    patches.wrap(queue, "get_nowait", _get_nowait)
    patches.wrap(queue, "task_done", _task_done)
    patches.wrap(queue, "join", _queue_join)
    add_stack(queues_module.LifoQueue)


def _put_nowait(original: Any) -> Any:
    def put_nowait(self: Any, item: Any) -> Any:
        if not is_followed(self):
            return original(self, item)
        if has_few_places(self) and not self.full():
            room_of(self, self.qsize()).use()
        items = items_of(self)
        items.add(item, mark(QUEUE))
        try:
            return original(self, item)
        except BaseException:
            items.remove(item, from_end=True)
            raise

    return put_nowait


def _get_nowait(original: Any) -> Any:
    def get_nowait(self: Any) -> Any:
        room = room_of(self, self.qsize()) if is_followed(self) and has_few_places(self) else None
        item = original(self)
        items = self._itc_items
        if items is not None:
            take(items.remove(item))
        if room is not None:
            room.make()
        return item

    return get_nowait


def _task_done(original: Any) -> Any:
    def task_done(self: Any) -> Any:
        note_done(self)
        return original(self)

    return task_done


def _queue_join(original: Any) -> Any:
    async def join(self: Any) -> None:
        await original(self)
        take_done(self)

    return join
