"""Writes a file whole or not at all: a disk that is full leaves what was there."""

from __future__ import annotations

import contextlib
import os
from collections.abc import Iterator


@contextlib.contextmanager
def replacing(file: str) -> Iterator[str]:
    """A name beside the file, which takes its place once all is written: nobody reads half of it."""
    whole = os.path.realpath(file)
    new = f"{whole}.new"
    try:
        yield new
        os.replace(new, whole)
    finally:
        with contextlib.suppress(FileNotFoundError):
            os.unlink(new)
