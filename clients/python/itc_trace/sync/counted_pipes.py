"""Counts what goes through a pipe of `multiprocessing`, in each direction: what is sent first is received first.

Bytes carry no name. So the name of a message follows from the pipe and from how many were sent before. It is exact as
long as one process sends, another one receives, and each of them does so by one task at a time. Whoever else comes to
an end of the pipe says so before, and from then on nothing is known of what this end does.
"""

from __future__ import annotations

import os
import stat
from _thread import get_ident
from typing import Any

from ..model.lines import state
from ..record import following
from ..record.shared_names import SharedNames

SENDING, RECEIVING = "s", "r"
_PEER, _LOST, _FIRST_PROCESS = "peer", "lost", "main"
_ends: dict[str, End | None] = {}
"""The ends of pipes that this process uses, by their keys."""


class End:
    """What this process knows of one end of a pipe."""

    def __init__(self, names: SharedNames, slot: int, pipe: str, tag: str) -> None:
        self._names = names
        self._slot = slot
        self._pipe = pipe
        self.tag = tag
        """Stands for this process."""
        self._users: set[int] = set()

    def begin(self) -> int | None:
        """The current thread begins to use it. Gives the number of the message. None, if that is not known."""
        self._users.add(get_ident())
        with self._names.alone():
            count = self._count()
            if count is None or len(self._users) > 1:
                self.lose()
                return None
            self._put(count)
        return count + 1

    def end(self, number: int | None) -> int | None:
        """It has used it. Gives the same number, if nobody else has used it meanwhile."""
        self._users.discard(get_ident())
        with self._names.alone():
            if number is None or self._count() != number - 1:
                self.lose()
                return None
            self._put(number)
        return number

    def lose(self) -> None:
        """Nothing is known of it any more."""
        self._names.put(self._slot, _LOST)

    def _put(self, count: int) -> None:
        self._names.put(self._slot, f"{count} {self.tag}")

    def _count(self) -> int | None:
        count, _, tag = self._names.name_at(self._slot).partition(" ")
        if not count:
            return 0
        return int(count) if tag == self.tag else None

    def message(self, number: int) -> str:
        """The name of the message of this number."""
        return f"b{self._pipe}_{number}"


def made(one: Any, other: Any) -> None:
    """The two connections of a pipe were made. Whoever sends by one of them has to know the other."""
    names = following.shared_names() if following.is_there() else None
    numbers = [_number_of(connection, stat.S_ISSOCK) for connection in (one, other)]
    if names is None or None in numbers:
        return
    for number, peer in (numbers, numbers[::-1]):
        slot = names.slot_of(f"{_PEER}{number}")
        if slot is not None:
            names.put(slot, str(peer))


def _number_of(connection: Any, is_of_kind: Any) -> int | None:
    """What the system knows a pipe by, in each process."""
    try:
        found = os.fstat(connection._handle)
    except (OSError, TypeError):
        return None
    return found.st_ino if is_of_kind(found.st_mode) else None


def end_of(connection: Any, side: str) -> End | None:
    """The end by which this process sends or receives. None, if the other end is not known."""
    names = following.shared_names() if following.is_there() else None
    tracer = state.tracer
    if names is None or tracer is None:
        return None
    pipe, tag = _pipe_of(connection, side, names), tracer.prefix.rstrip("_") or _FIRST_PROCESS
    if pipe is None:
        return None
    key = f"{side}{pipe}"
    end = _ends.get(key)
    if end is None or end.tag != tag:
        slot = names.slot_of(key)
        end = _ends[key] = None if slot is None else End(names, slot, pipe, tag)
    return end


def _pipe_of(connection: Any, side: str, names: SharedNames) -> str | None:
    """The pipe is known by who receives: both ends of a pipe of the system are one, and a pair of sockets is two."""
    number = _number_of(connection, stat.S_ISFIFO)
    if number is not None:
        return str(number)
    number = _number_of(connection, stat.S_ISSOCK)
    slot = None if number is None else names.slot_of(f"{_PEER}{number}")
    peer = "" if slot is None else names.name_at(slot)
    if not peer:
        return None
    return str(number) if side == RECEIVING else peer
