"""A bar of progress on a terminal, for questions that take their time."""

from __future__ import annotations

import time
from collections.abc import Iterable, Iterator
from typing import TextIO

from .trace import Asked

QUIET_SECONDS = 0.5
"""What takes less shows no bar."""
BETWEEN = 0.1
WIDTH = 30


class Bar:
    """The bar, on the last line of a terminal. Elsewhere nothing is written."""

    def __init__(self, stream: TextIO | None) -> None:
        self._stream = stream if stream is not None and stream.isatty() else None
        self._next = time.monotonic() + QUIET_SECONDS
        self._is_shown = False

    def show(self, done: int, total: int, what: str) -> None:
        now = time.monotonic()
        if self._stream is None or now < self._next:
            return
        self._next, self._is_shown = now + BETWEEN, True
        filled = WIDTH * done // max(1, total)
        self._write(f"\ritc_trace: [{'#' * filled}{' ' * (WIDTH - filled)}] {done} of {total} {what}")

    def clear(self) -> None:
        if self._is_shown:
            self._is_shown = False
            self._write("\r\033[K")

    def _write(self, text: str) -> None:
        assert self._stream is not None
        try:
            self._stream.write(text)
            self._stream.flush()
        except OSError:
            self._stream = None


class Shown:
    """Asks as a session does, and shows how far it has come."""

    def __init__(self, view: Asked, bar: Bar) -> None:
        self._view = view
        self._bar = bar

    def ask(self, lines: Iterable[str]) -> Iterator[str]:
        asked = list(lines)
        try:
            for done, reply in enumerate(self._view.ask(asked), 1):
                self._bar.show(done, len(asked), "questions")
                yield reply
        finally:
            self._bar.clear()
