"""Tells of what orders processes, or what they share, and is not followed. A child that may use it is not traced."""

from __future__ import annotations

from collections.abc import Callable
from types import ModuleType
from typing import Any

from ..record import following
from .base import Patches
from .later import once_imported
from .values import is_making

OF_POOL = "_SafeQueue"
"""The queue of a `ProcessPoolExecutor`, whose jobs have an order of their own."""


def put(patches: Patches) -> None:
    for module, kind, tells in _MAKING:
        once_imported(module, _telling(patches, kind, tells))


def _telling(patches: Patches, kind: str, tells: Callable[[Any], Any]) -> Callable[[ModuleType], None]:
    return lambda module: patches.wrap(vars(module)[kind], "__init__", tells)


def _tells_of_memory(original: Any) -> Any:
    def __init__(self: Any, size: int) -> None:
        if not is_making():
            following.is_not_followed("shared memory")
        original(self, size)

    return __init__


def _tells_of_queue(original: Any) -> Any:
    """What a class of the program puts is not followed."""

    def __init__(self: Any, maxsize: int = 0, **named: Any) -> None:
        if type(self).__name__ not in (OF_POOL, "Queue", "JoinableQueue"):
            following.is_not_followed(type(self).__name__)
        original(self, maxsize, **named)

    return __init__


_MAKING = (
    ("multiprocessing.heap", "BufferWrapper", _tells_of_memory),
    ("multiprocessing.queues", "Queue", _tells_of_queue),
)
"""The modules and classes by which a program makes such things, or gets them from another process, and what tells."""
