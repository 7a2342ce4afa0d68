"""Counts how many different numbers there are among any number of them, in bounded memory."""

from __future__ import annotations

import tempfile
from array import array
from collections import defaultdict
from collections.abc import Iterable
from typing import IO

MOST_IN_MEMORY = 1 << 14
"""So many are told apart in memory. Then they go to files."""
FILES = 64
NUMBERS = "Q"


class Distinct:
    """Different numbers of 64 bits. Once there are many, they lie in files, and equal ones in the same file."""

    def __init__(self) -> None:
        self._seen: set[int] = set()
        self._files: dict[int, IO[bytes]] = {}

    def __enter__(self) -> Distinct:
        return self

    def __exit__(self, *_: object) -> None:
        for file in self._files.values():
            file.close()

    def add(self, numbers: Iterable[int]) -> None:
        self._seen.update(numbers)
        if len(self._seen) > MOST_IN_MEMORY:
            self._write()

    def _write(self) -> None:
        groups: dict[int, array[int]] = defaultdict(lambda: array(NUMBERS))
        for one in self._seen:
            groups[one % FILES].append(one)
        for number, group in groups.items():
            if number not in self._files:
                self._files[number] = tempfile.TemporaryFile()
            self._files[number].write(group.tobytes())
        self._seen.clear()

    def count(self) -> int:
        """How many different ones there are by now."""
        if not self._files:
            return len(self._seen)
        self._write()
        return sum(map(_count_in, self._files.values()))


def _count_in(file: IO[bytes]) -> int:
    file.seek(0)
    numbers = array(NUMBERS)
    numbers.frombytes(file.read())
    return len(set(numbers))
