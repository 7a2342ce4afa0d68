"""Traces `ProcessPoolExecutor`: each job is a task of its own in the process that runs it, after who submitted it.

A pool promises no order between its jobs. So neither the process that runs two of them nor the thread that gives
results back orders anything: a job comes after its submission and after the making of the pool, and whoever takes a
result after the job.
"""

from __future__ import annotations

from concurrent.futures import Future
from types import ModuleType
from typing import Any

from ..record import following
from ..model.lines import FINISH, JOIN, SPAWN, Line, state
from ..record.noting import current, enter, local
from ..model.frames import frame_at, place_of
from ..record.messages import Sending, incoming_at
from .base import Patches
from .later import once_imported
from .left_behind import Outcome, begun

_done: list[Line] = []
"""The jobs that were run in this process."""
_MESSAGE = "_itc_message"


def put(patches: Patches) -> None:
    patches.wrap(Future, "set_result", _set_result)
    patches.wrap(Future, "set_exception", _set_exception)
    once_imported("concurrent.futures.process", lambda module: _put_pools(patches, module))


def _put_pools(patches: Patches, module: ModuleType) -> None:
    kind: Any = vars(module)["ProcessPoolExecutor"]
    patches.wrap(kind, "__init__", _begin)
    patches.wrap(kind, "submit", _submit)
    patches.wrap(kind, "_spawn_process", _spawn_process)


# The pool


def _begin(original: Any) -> Any:
    def __init__(self: Any, *words: Any, **named: Any) -> None:
        original(self, *words, **named)
        note, tracer = state.note, state.tracer
        if note is not None and tracer is not None and following.is_on():
            line = self.__dict__["_itc_line"] = Line(tracer, "pool#")
            note((SPAWN, current(), line, *place_of(following.frame_of_start(1))))

    return __init__


def _spawn_process(original: Any) -> Any:
    """The processes are children of the pool, and not of who happens to submit a job."""

    def _spawn_process(self: Any) -> None:
        with following.as_child_of(self.__dict__.get("_itc_line")):
            original(self)

    return _spawn_process


def _submit(original: Any) -> Any:
    def submit(self: Any, fn: Any, /, *args: Any, **kwargs: Any) -> Any:
        is_traced = "_itc_line" in self.__dict__ and following.is_on()
        sending = Sending.begin(following.frame_of_start(1)) if is_traced else None
        future = original(self, fn if sending is None else Job(fn, sending), *args, **kwargs)
        if state.note is not None:
            begun(future, Outcome.FUTURE, frame_at(1))
        return future

    return submit


# Where a job runs


class Job:
    """A function that is called in another process, after the message of who submitted it."""

    def __init__(self, function: Any, sent: Sending | str | None) -> None:
        self._function = function
        self._sent = sent

    def __reduce__(self) -> Any:
        return Job, (self._function, self._sent.name() if isinstance(self._sent, Sending) else self._sent)

    def __call__(self, *args: Any, **kwargs: Any) -> Any:
        line, worker = self._begun(), getattr(local, "line", None)
        if line is None:
            return self._function(*args, **kwargs)
        enter(line)
        incoming_at(self._sent if isinstance(self._sent, str) else None, None)
        try:
            value = self._function(*args, **kwargs)
        except BaseException as error:
            error.__dict__[_MESSAGE] = _ended(line, worker)
            raise
        return Result(value, _ended(line, worker))

    def _begun(self) -> Line | None:
        note, tracer = state.note, state.tracer
        if note is None or tracer is None:
            return None
        line = Line(tracer, f"{_name_of(self._function)}#")
        line.must_finish = line.is_gone = True  # Nobody waits for it but the end of this process.
        note((SPAWN, current(), line, None, 0))
        return line


def _name_of(function: Any) -> str:
    while hasattr(function, "func") and hasattr(function, "args"):
        # A job of `map` calls the function that it is given.
        function = function.args[0] if function.args else function.func
    return str(getattr(function, "__name__", "job"))


def _ended(line: Line, worker: Line | None) -> str | None:
    """Ends the job, and gives the message for whoever takes its result."""
    sending = Sending.begin(None)
    name = None if sending is None else sending.name()
    enter(worker)
    note = state.note
    if note is not None and line.tracer is state.tracer:
        _done.append(line)
        note((FINISH, line, True))
    return name


def take_done() -> None:
    """Before this process ends: whoever joins it comes after its jobs."""
    for line in _done:
        note, tracer = state.note, state.tracer
        if note is not None and tracer is not None and line.tracer is tracer:
            tracer.main.section = None
            note((JOIN, tracer.main, line, None, 0))


# The result


class Result:
    """What a job gave, and the message of its end."""

    def __init__(self, value: Any, message: str | None) -> None:
        self.value = value
        self.message = message

    def __repr__(self) -> str:
        return repr(self.value)  # A value that cannot be pickled is shown in the error that says so.


def opened(value: Any) -> tuple[Any, str | None]:
    """What a job gave or raised, and the message of its end."""
    if type(value) is Result:
        return value.value, value.message
    return value, value.__dict__.pop(_MESSAGE, None) if isinstance(value, BaseException) else None


def _set_result(original: Any) -> Any:
    """A result that brings a message is ordered by that, and not by the thread that sets it."""
    plain = original.__wrapped__

    def set_result(self: Any, result: Any) -> None:
        if type(result) is Result:
            result, self._itc_message = opened(result)
            plain(self, result)
        else:
            original(self, result)

    return set_result


def _set_exception(original: Any) -> Any:
    plain = original.__wrapped__

    def set_exception(self: Any, exception: Any) -> None:
        exception, message = opened(exception)
        if message is None:
            original(self, exception)
        else:
            self._itc_message = message
            plain(self, exception)

    return set_exception
