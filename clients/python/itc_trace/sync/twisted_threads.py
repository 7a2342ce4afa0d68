"""Traces the pools of threads of Twisted: each function that a thread of a pool calls is a task of its own.

Whoever has the result, as by `deferToThread`, comes after the function. A thread of a pool hands on what it was given,
and orders nothing by that.
"""

from __future__ import annotations

import os
from functools import partial
from types import ModuleType
from typing import Any

from ..model.frames import frame_at, line_of, place
from ..model.lines import state
from ..model.verdict import PassedOver
from .base import Patches
from .thread_jobs import Job, named_job
from .twisted_flows import come_after, here, is_of_program, once_followed

OWN_POOLS = "tasks of {}"
found: dict[PassedOver, None] = {}
"""Where the program has made pools by classes of its own, which may call what they are given otherwise."""


def put(patches: Patches) -> None:
    once_followed(patches, "twisted.python.threadpool", _put_all)


def _put_all(patches: Patches, module: ModuleType) -> None:
    pool: Any = vars(module)["ThreadPool"]
    patches.wrap(pool, "__init__", lambda original: _begin_pool(original, pool))
    patches.wrap(pool, "callInThreadWithCallback", _in_thread)


def _begin_pool(original: Any, kind: Any) -> Any:
    def __init__(self: Any, *words: Any, **named: Any) -> None:
        own = type(self)
        if state.note is not None and own is not kind and is_of_program(own):
            code, instruction = place(frame_at(1))
            where = "?" if code is None else f"{os.path.basename(code.co_filename)}:{line_of(code, instruction)}"
            found[PassedOver(OWN_POOLS.format(own.__name__), where)] = None
        original(self, *words, **named)

    return __init__


def _in_thread(original: Any) -> Any:
    def callInThreadWithCallback(self: Any, onResult: Any, func: Any, *args: Any, **kw: Any) -> Any:
        if state.note is None or not callable(func) or self.joined:
            return original(self, onResult, func, *args, **kw)
        job = Job(func)
        call = named_job(func, lambda function: partial(job.run, function))
        return original(self, None if onResult is None else _Given(job, onResult), call, *args, **kw)

    return callInThreadWithCallback


class _Given:
    """What a thread of a pool calls with the result. All that it hands on comes from the function."""

    __slots__ = ("_job", "_function")

    def __init__(self, job: Job, function: Any) -> None:
        self._job = job
        self._function = function

    def __call__(self, success: Any, result: Any) -> Any:
        if is_of_program(self._function):
            come_after((self._job,))
            return self._function(success, result)
        before, here.giving = here.giving, (self._job,)
        try:
            return self._function(success, result)
        finally:
            here.giving = before
