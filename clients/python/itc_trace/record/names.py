"""The names of tasks: each has one of its own, short and readable."""

from __future__ import annotations

import functools
import re

MOST_NAME = 24
MOST_TAG = 8
MOST_HINTS = 256
"""So many hints are kept, each with the name that is made of it."""
MOST_KEPT = 20_000
"""So many hints are kept with their last numbers."""
ROOM = 6
"""So many characters of a name are left to its number and the line before it. From `MANY` on it takes more."""
MANY = 10 ** (ROOM - 1)
ANY_PROCESS = "p"


def _clean(hint: str, room: int) -> str:
    name = re.sub(r"[^A-Za-z0-9]+", "_", hint).strip("_")
    return name[:room].strip("_") or "task"


def tag_of(process: str, number: int) -> str:
    """The first part of all names of a process, the next one if others have those of lower numbers."""
    base = re.sub(r"[^A-Za-z0-9]+", "", process)[: MOST_TAG - 3] or ANY_PROCESS
    return base if number == 1 and base != ANY_PROCESS else f"{base}{number}"


class Names:
    """Gives each task a name of its own, short and readable: a hint, or a hint with a number behind it.

    The hints are kept with their last numbers, and not each name. From `MANY` on no two names have the same number.
    """

    def __init__(self, prefix: str) -> None:
        self._prefix = prefix
        self._numbers: dict[str, int] = {}
        self._last_of_many = MANY - 1
        self._clean = functools.lru_cache(MOST_HINTS)(_clean)

    def new(self, hint: str) -> str:
        base = self._clean(hint.rstrip("#"), MOST_NAME - len(self._prefix) - ROOM)
        is_new = base not in self._numbers and len(self._numbers) < MOST_KEPT
        if is_new:
            self._numbers[base] = int(self._is_given(base))
        if is_new and not hint.endswith("#") and not self._numbers[base]:
            self._numbers[base], name = 1, base
        else:
            name = self._numbered(base)
        return self._prefix + name

    def _is_given(self, name: str) -> bool:
        """Whether it is the name of another hint with a number."""
        base, _, text = name.rpartition("_")
        number = int(text) if text.isdecimal() and not text.startswith("0") else 0
        return 0 < number <= self._numbers.get(base, 0) or MANY <= number <= self._last_of_many

    def _numbered(self, base: str) -> str:
        """The next name of the hint with a number. A hint that is not kept has the numbers from `MANY` on."""
        while True:
            number = self._numbers.get(base, MANY - 1) + 1
            if number < MANY:
                self._numbers[base] = number
            else:
                number = self._last_of_many = self._last_of_many + 1
            room = MOST_NAME - len(self._prefix) - 1 - len(str(number))
            name = f"{base[:room].rstrip('_')}_{number}"
            if name not in self._numbers:
                return name
