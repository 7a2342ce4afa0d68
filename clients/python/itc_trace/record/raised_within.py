"""Tells what the program raises in the middle of a hook from a fault of the hook.

A handler of a signal is called wherever the main thread is, and another thread may have an exception raised there.
"""

from __future__ import annotations

import functools
import os
import signal
import sys
from types import CodeType, FunctionType, MethodType
from typing import Any

OWN_FOLDER = os.path.dirname(os.path.dirname(os.path.abspath(__file__))) + os.sep
LIBRARY = os.path.dirname(os.__file__) + os.sep
PACKAGES = ("site-packages", "dist-packages")
FROZEN = "<frozen "
_handler_of = signal.getsignal
_seen: set[CodeType] = set()
"""The code of each handler that was set, as one may put another one in its own place."""


def keep_handler(handler: Any) -> None:
    code = _code_of(handler)
    if code is not None:
        _seen.add(code)


def is_of_program(fault: Exception) -> bool:
    codes = _codes_in(fault)
    if all(code.co_filename.startswith(OWN_FOLDER) for code in codes):
        return _is_type_of_program(type(fault))
    handlers = {_code_of(_handler_of(number)) for number in signal.valid_signals()}
    return not (handlers | _seen).isdisjoint(codes)


def _codes_in(fault: Exception) -> list[CodeType]:
    found, trace = [], fault.__traceback__
    while trace is not None:
        found.append(trace.tb_frame.f_code)
        trace = trace.tb_next
    return found


def _is_type_of_program(kind: type) -> bool:
    """Whether no hook could raise it by itself: it is neither of the language, nor of the library, nor of the package.
    """
    file = getattr(sys.modules.get(kind.__module__), "__file__", None) or OWN_FOLDER
    return not is_of_library(file) and not file.startswith(OWN_FOLDER)


def is_of_library(file: str) -> bool:
    is_there = file.startswith(LIBRARY) and not file.removeprefix(LIBRARY).startswith(PACKAGES)
    return is_there or file.startswith(FROZEN)


def _code_of(handler: Any) -> CodeType | None:
    """The code that runs if the handler is called."""
    if isinstance(handler, functools.partial):
        return _code_of(handler.func)
    if isinstance(handler, MethodType):
        return _code_of(handler.__func__)
    if isinstance(handler, FunctionType):
        return handler.__code__
    call = getattr(type(handler), "__call__", None)
    return call.__code__ if isinstance(call, FunctionType) else None
