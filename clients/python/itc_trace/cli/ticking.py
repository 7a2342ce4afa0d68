"""Says on a terminal that a long run goes on: a line now and then, since the program writes there, too."""

from __future__ import annotations

import threading
import time
from collections.abc import Callable, Iterator
from contextlib import contextmanager
from typing import TextIO

from ..report.screen import is_terminal
from .saying import say

FIRST_SECONDS = 5.0
"""So long nothing is said. Then it is said after twice as long as before, each time."""


@contextmanager
def ticking(stream: TextIO | None, told: Callable[[], str], first: float = FIRST_SECONDS) -> Iterator[None]:
    """Within the block a line says now and then how long it has taken, and what is told besides."""
    if not is_terminal(stream):
        yield
        return
    is_over = threading.Event()
    thread = threading.Thread(target=_tick, args=(is_over, told, first), daemon=True)
    thread.start()
    try:
        yield
    finally:
        is_over.set()
        thread.join()


def _tick(is_over: threading.Event, told: Callable[[], str], first: float) -> None:
    begun = time.monotonic()
    while not is_over.wait(first):
        say(f"itc_trace: {told()}{time.monotonic() - begun:.0f} s so far")
        first = time.monotonic() - begun


def left_in_words(seconds: float, done: int, of: int) -> str:
    """How long the other runs may take, if they take as long as those that are done."""
    return f"; about {seconds / done * (of - done):.0f} s for the others" if done < of else ""
