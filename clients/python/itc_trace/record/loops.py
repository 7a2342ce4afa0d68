"""Which loop of asyncio runs in this thread, and which of its tasks runs there.

Most programs never import asyncio. Its modules would take megabytes of each that is traced, so the package does not
import it, either.
"""

from __future__ import annotations

import sys
from collections.abc import Callable
from types import ModuleType
from typing import Any


def no_loop(*_: object) -> None:
    """Before the program has asyncio, no loop runs."""


class _Asyncio:
    """How asyncio is asked."""

    __slots__ = ("running", "task_of")

    def __init__(self) -> None:
        self.running: Callable[[], Any] = no_loop
        """Gives the loop that runs in this thread, or None."""
        self.task_of: Callable[[Any], Any] = no_loop
        """Gives the task that this loop runs now, or None."""


ASYNCIO = _Asyncio()


def know_asyncio(module: ModuleType) -> None:
    """From here on the program has it."""
    ASYNCIO.task_of = module.tasks._current_tasks.get if sys.version_info < (3, 12) else module.current_task
    ASYNCIO.running = module.events._get_running_loop
