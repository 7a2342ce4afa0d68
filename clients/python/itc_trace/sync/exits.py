"""Traces the end of the program: what runs in `atexit` comes after each thread that was waited for,
and after its registration."""

from __future__ import annotations

import atexit
import threading
from types import MethodType
from typing import Any

from ..model.lines import END, EXIT, TAKE_END, Token, state
from ..record.noting import current, mark, take
from ..record.awaited import await_nobody, awaited
from ..model.frames import frame_at, place
from .base import Patches, like

_registered: list[Token | None] = []
"""For each function that is to run at the end, the place of its registration. None stands for the main thread's."""


def put(patches: Patches) -> None:
    await_nobody()
    _registered.clear()
    patches.replace(atexit, "register", like(atexit.register, _register(atexit.register)))
    patches.wrap(threading, "_shutdown", _shutdown)


def _register(original: Any) -> Any:
    def register(func: Any, /, *args: Any, **kwargs: Any) -> Any:
        told = original(func, *args, **kwargs)
        if state.note is not None and not _is_ours(func):
            is_main = threading.get_ident() == threading.main_thread().ident
            _registered.append(None if is_main else mark(EXIT))
        return told

    return register


def _is_ours(function: Any) -> bool:
    return type(function) is MethodType and type(function.__self__).__module__.partition(".")[0] == "itc_trace"


def _shutdown(original: Any) -> Any:
    def _shutdown() -> None:
        main: Any = threading.main_thread()
        main._itc_end = mark(END, 1)
        original()
        if _registered:
            _take_all()

    return _shutdown


def _take_all() -> None:
    for token in _registered:
        take(token)
    for line in awaited():
        note = state.note
        if note is not None and line.tracer is state.tracer:
            note((TAKE_END, current(), line, *place(frame_at(1))))
