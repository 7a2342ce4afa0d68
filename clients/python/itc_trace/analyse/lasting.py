"""Which things are touched in several parts of a run, and up to which one.

A touch of an earlier part races with none behind the last part that touches its thing. So it need not be kept then, and
what is kept of a long run is of things that go on.
"""

from __future__ import annotations

import os
import tempfile
from array import array
from collections import defaultdict
from collections.abc import Iterator
from typing import IO

from ..model.digests import number_of

MOST_IN_MEMORY = 1 << 14
"""So many pairs of a thing and a part are kept in memory. Then they go to files."""
FILES = 64
NUMBERS = "Q"
GOES_ON, IS_OVER = "goes-on", "over"


class LastingThings:
    """Of each part the things that go on behind it, and those that it is the last one of. They lie in a folder.

    A thing is known by the number of its name. If two have the same, both are kept as long as either.
    """

    def __init__(self, folder: str) -> None:
        self._folder = folder

    def go_on(self, part: int) -> set[int]:
        """The things of this part that a later one touches."""
        return self._read(GOES_ON, part)

    def are_over(self, part: int) -> set[int]:
        """Those of the things that an earlier part has touched, and this one as the last."""
        return self._read(IS_OVER, part)

    def _read(self, kind: str, part: int) -> set[int]:
        try:
            with open(file_of(self._folder, kind, part), "rb") as file:
                return set(_numbers_of(file))
        except FileNotFoundError:
            return set()


class LastingFinder:
    """Takes each touch of a thing, and then writes what `LastingThings` reads."""

    def __init__(self, folder: str) -> None:
        self._folder = folder
        self._fresh: set[tuple[int, int]] = set()
        self._files: dict[int, IO[bytes]] = {}

    def close(self) -> None:
        for file in self._files.values():
            file.close()

    def add(self, thing: str, part: int) -> None:
        self._fresh.add((number_of(thing), part))
        if len(self._fresh) > MOST_IN_MEMORY:
            self._put_by()

    def _put_by(self) -> None:
        """All pairs of one thing come into the same file."""
        groups: dict[int, array[int]] = defaultdict(lambda: array(NUMBERS))
        for pair in self._fresh:
            groups[pair[0] % FILES].extend(pair)
        for number, group in groups.items():
            if number not in self._files:
                self._files[number] = tempfile.TemporaryFile(dir=self._folder)
            self._files[number].write(group.tobytes())
        self._fresh.clear()

    def write(self) -> None:
        """Once all touches were taken."""
        self._put_by()
        told = _Told(self._folder)
        for file in self._files.values():
            for thing, parts in _parts_of_things(file):
                *earlier, last = sorted(parts)
                for part in earlier:
                    told.add(GOES_ON, part, thing)
                if earlier:
                    told.add(IS_OVER, last, thing)
        told.write()


def _parts_of_things(file: IO[bytes]) -> Iterator[tuple[int, set[int]]]:
    file.seek(0)
    numbers = _numbers_of(file)
    found: dict[int, set[int]] = defaultdict(set)
    for thing, part in zip(numbers[::2], numbers[1::2]):
        found[thing].add(part)
    yield from found.items()


class _Told:
    """Adds things to the files of parts, many at a time."""

    def __init__(self, folder: str) -> None:
        self._folder = folder
        self._count = 0
        self._waiting: dict[tuple[str, int], array[int]] = defaultdict(lambda: array(NUMBERS))

    def add(self, kind: str, part: int, thing: int) -> None:
        self._waiting[kind, part].append(thing)
        self._count += 1
        if self._count >= MOST_IN_MEMORY:
            self.write()

    def write(self) -> None:
        for (kind, part), things in self._waiting.items():
            with open(file_of(self._folder, kind, part), "ab") as file:
                file.write(things.tobytes())
        self._waiting.clear()
        self._count = 0


def file_of(folder: str, kind: str, part: int) -> str:
    """The file of a folder that has something of this kind of a part."""
    return os.path.join(folder, f"{kind}-{part}")


def _numbers_of(file: IO[bytes]) -> array[int]:
    numbers = array(NUMBERS)
    numbers.frombytes(file.read())
    return numbers
