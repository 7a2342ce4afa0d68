"""The threads that report and read replies. They take no signal: each is for a thread of the program."""

from __future__ import annotations

import _thread
import contextlib
import importlib
import os
import signal
from collections.abc import Callable
from typing import TypeVar

Process = TypeVar("Process")

_start = _thread.start_new_thread
_set_mask = getattr(signal, "pthread_sigmask", None)
"""Both as they are before any program is traced."""
_OF_ONES_OWN = {getattr(signal, name, None) for name in ("SIGSEGV", "SIGBUS", "SIGFPE", "SIGILL")}
"""What a thread does wrong comes to itself."""
_alive: set[object] = set()
"""Something for each of these threads that has not ended."""
IDENTS: set[int] = set()
"""The numbers of those that run."""
if hasattr(os, "register_at_fork"):
    os.register_at_fork(after_in_child=_alive.clear)
    os.register_at_fork(after_in_child=IDENTS.clear)


_WHAT_ENDS_THREADS = "libgcc_s.so.1"
"""The C library loads it to end a thread for the interpreter, and aborts the process if it cannot."""


def _load_what_ends_threads() -> None:
    """At the end of the process it may be too late: the program may have opened as many files as it may."""
    with contextlib.suppress(ImportError, AttributeError, OSError):
        importlib.import_module("_ctypes").dlopen(_WHAT_ENDS_THREADS, os.RTLD_NOW)


def count_of_own() -> int:
    """How many such threads there are."""
    return len(_alive)


def start_thread(run: Callable[[], object]) -> None:
    """Starts a thread that blocks all signals.

    One that all threads of the program block stays pending, as it would untraced.
    """
    if not _alive:
        _load_what_ends_threads()
    counted = object()

    def run_counted() -> None:
        own = _thread.get_ident()
        IDENTS.add(own)
        try:
            run()
        finally:
            IDENTS.discard(own)
            _alive.discard(counted)

    _alive.add(counted)
    if _set_mask is None:
        _start(run_counted, ())
        return
    before = _set_mask(signal.SIG_BLOCK, signal.valid_signals() - _OF_ONES_OWN)
    try:
        _start(run_counted, ())
    except BaseException:
        _alive.discard(counted)
        raise
    finally:
        _set_mask(signal.SIG_SETMASK, before)


def with_signals(begin: Callable[[], Process]) -> Process:
    """Begins a process that takes all signals, whichever thread begins it:
    a process inherits what its thread blocks."""
    if _set_mask is None:
        return begin()
    before = _set_mask(signal.SIG_SETMASK, ())
    try:
        return begin()
    finally:
        _set_mask(signal.SIG_SETMASK, before)
