"""Who stands at a line and waits for another one to come, as all processes of a program see it.

It is kept among the names that processes share. A program whose children are not traced keeps it by itself.
"""

from __future__ import annotations

import contextlib
import os
from _thread import get_ident
from collections.abc import Iterator
from time import monotonic
from typing import NamedTuple, Protocol

from . import plain

MOST_STANDING = 32
"""So many tasks may stand at once."""
_SECONDS = "seconds"


class Texts(Protocol):
    """Texts by their keys, which one task at a time may change."""

    def slot_of(self, key: str) -> int | None: ...

    def name_at(self, slot: int) -> str: ...

    def put(self, slot: int, name: str) -> None: ...

    def alone(self) -> contextlib.AbstractContextManager[None]: ...


class OwnTexts:
    """Those of one process."""

    def __init__(self) -> None:
        self._guard = plain.allocate_lock()
        self._slots: dict[str, int] = {}
        self._texts: list[str] = []

    def slot_of(self, key: str) -> int:
        slot = self._slots.setdefault(key, len(self._texts))
        if slot == len(self._texts):
            self._texts.append("")
        return slot

    def name_at(self, slot: int) -> str:
        return self._texts[slot]

    def put(self, slot: int, name: str) -> None:
        self._texts[slot] = name

    @contextlib.contextmanager
    def alone(self) -> Iterator[None]:
        with self._guard:
            yield


class Standing(NamedTuple):
    """A task that stands at a place, until a time of the system's monotonic clock at most."""

    who: str
    place: int
    until: float
    owner: str
    """What it is about to touch, as other processes know it. It is empty if that is not known."""
    key: str
    """A part of that, if it is known."""
    has_met: bool = False

    @staticmethod
    def read(text: str) -> Standing | None:
        """None if nobody stands there now, also if whoever did is dead."""
        words = text.split("|")
        if len(words) != len(Standing._fields):
            return None
        one = Standing(words[0], int(words[1]), float(words[2]), words[3], words[4], words[5] == "1")
        return one if one.until > monotonic() else None

    def text(self) -> str:
        return f"{self.who}|{self.place}|{self.until:.3f}|{self.owner}|{self.key}|{int(self.has_met)}"

    def may_be(self, other: Standing) -> bool:
        """Whether both are about to touch the same."""
        pairs = (self.owner, other.owner), (self.key, other.key)
        return all(not one or not another or one == another for one, another in pairs)


def who_is_here() -> str:
    """What tells this thread from those of all processes."""
    return f"{os.getpid()}.{get_ident()}"


class Board:
    """Who stands where, and what all tasks of a run have waited for in vain."""

    def __init__(self, texts: Texts) -> None:
        self._texts = texts
        self._slots = [self._slot(f"stands {number}") for number in range(MOST_STANDING)]
        self._counts: dict[str, int] = {}

    def _slot(self, key: str) -> int:
        slot = self._texts.slot_of(f"meet {key}")
        if slot is None:
            raise OSError("there is no room for those who stand at a line")
        return slot

    def alone(self) -> contextlib.AbstractContextManager[None]:
        """Within the block no other task stands up, is met or leaves."""
        return self._texts.alone()

    def standing(self) -> Iterator[tuple[int, Standing]]:
        """Those who stand somewhere, each with the slot by which it is known."""
        for slot in self._slots:
            one = Standing.read(self._texts.name_at(slot))
            if one is not None:
                yield slot, one

    def stand(self, one: Standing) -> int | None:
        """Gives the slot by which the task is known. None if there is no room."""
        slot = next((slot for slot in self._slots if Standing.read(self._texts.name_at(slot)) is None), None)
        if slot is not None:
            self._texts.put(slot, one.text())
        return slot

    def meet(self, slot: int, one: Standing) -> None:
        """Another task has come to whoever stands there."""
        self._texts.put(slot, one._replace(has_met=True).text())

    def has_met(self, slot: int) -> bool:
        return self._texts.name_at(slot).endswith("|1")

    def leave(self, slot: int) -> None:
        self._texts.put(slot, "")

    def count(self, what: str) -> int:
        return int(self._texts.name_at(self._slot_of(what)) or 0)

    def add(self, what: str, number: int) -> None:
        self._texts.put(self._slot_of(what), str(self.count(what) + number))

    def _slot_of(self, what: str) -> int:
        slot = self._counts.get(what)
        if slot is None:
            slot = self._counts[what] = self._slot(what)
        return slot

    @property
    def seconds(self) -> float:
        """How long tasks have stood in vain."""
        return self.count(_SECONDS) / 1000

    def add_seconds(self, seconds: float) -> None:
        self.add(_SECONDS, round(seconds * 1000))

    def is_held_at(self, gate: int) -> bool:
        """Whether a task is held before this lock."""
        return self.count(f"until {gate}") > monotonic() * 1000

    def hold_at(self, gate: int, until: float) -> None:
        self.add(f"until {gate}", round(until * 1000) - self.count(f"until {gate}"))
