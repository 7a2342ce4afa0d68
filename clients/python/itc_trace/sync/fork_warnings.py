"""Has Python warn of a fork in a process of several threads by the program's threads alone:
those of this package are not meant."""

from __future__ import annotations

import os
import sys
import threading
import warnings
from collections.abc import Callable
from typing import Any

from ..record.own_threads import count_of_own
from .base import Patches

WARNS = sys.version_info >= (3, 12)
TEXT = "This process (pid={}) is multi-threaded, use of {}() may lead to deadlocks in the child."
"""As the language has it."""
_IGNORED = ("ignore", None, DeprecationWarning, __name__, 0)
"""A filter for what is warned of in calls of this module."""
_THREADS = 17
"""Where the number of threads stands behind the name of a process, in its line of the system's."""


def put(patches: Patches) -> None:
    if WARNS and hasattr(os, "forkpty"):
        patches.wrap(os, "forkpty", _forkpty)


def forked(fork: Callable[[], Any], name: str = "fork") -> Any:
    """What the fork gives. It warns where the caller of the caller stands, as it would warn untraced."""
    if not WARNS:
        return fork()
    filters: Any = warnings.filters
    # What was shown before is not shown again, since nobody is told that the filters are others.
    filters.insert(0, _IGNORED)
    try:
        told = fork()
    finally:
        filters.remove(_IGNORED)
    if _is_parent(told) and _threads() - count_of_own() > 1:
        try:
            warnings.warn(TEXT.format(os.getpid(), name), DeprecationWarning, 3)
        except DeprecationWarning:  # The language drops it, too, if it is to be an error.
            pass
    return told


def _is_parent(told: Any) -> bool:
    return bool(told[0] if isinstance(told, tuple) else told)


def _threads() -> int:
    """The threads of the process, as the language counts them."""
    try:
        with open("/proc/self/stat", "rb") as line:
            return int(line.read().rpartition(b")")[2].split()[_THREADS])
    except (OSError, ValueError, IndexError):
        return len(vars(threading)["_active"]) + len(vars(threading)["_limbo"]) + count_of_own()


def _forkpty(original: Any) -> Any:
    def forkpty() -> Any:
        return forked(original, "forkpty")

    return forkpty
