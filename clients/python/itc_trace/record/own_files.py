"""The descriptors of the package in the program's process. The program's own have the numbers that they would have
untraced, and a program that closes all of its files closes none of these.
"""

from __future__ import annotations

import os
from collections.abc import Callable
from typing import NamedTuple

try:
    import fcntl
    import resource
except ImportError:  # Another system, in which the numbers are not moved.
    fcntl = resource = None  # type: ignore[assignment]

MOST_NUMBER = 1024
"""Below this number `select` takes a descriptor."""
ROOM = 64
"""So many numbers below the greatest one are for the package."""

_close, _fstat = os.close, os.fstat
"""Both as they are before any program is traced."""


class _Kept(NamedTuple):
    """A descriptor of the package."""

    identity: tuple[int, int] | None
    """Which file it is of. Whatever else has its number by now is the program's."""
    move: Callable[[int], object] | None
    """Who is told of another number for it."""


_own: dict[int, _Kept] = {}


def keep(file: int, move: Callable[[int], object] | None = None) -> int:
    """Gives a descriptor one of the last numbers.

    If the program puts another file there, `move` is told of a new number.
    """
    kept = _with_great_number(file)
    if kept != file:
        _close(file)
    _own[kept] = _Kept(identity_of(kept), move)
    return kept


def identity_of(file: int) -> tuple[int, int] | None:
    """Which file the descriptor is of. None if it is of none."""
    try:
        found = _fstat(file)
    except OSError:
        return None
    return found.st_dev, found.st_ino


def spare(file: int) -> None:
    """Leaves a descriptor where it is. The program closes it no more."""
    _own[file] = _Kept(identity_of(file), None)


def let_go(file: int) -> None:
    """Whoever closes the descriptor does it by other means."""
    _own.pop(file, None)


def close(file: int) -> None:
    let_go(file)
    _close(file)


def _with_great_number(file: int) -> int:
    if fcntl is None:
        return file
    limit = resource.getrlimit(resource.RLIMIT_NOFILE)[0]
    most = MOST_NUMBER if limit == resource.RLIM_INFINITY else min(MOST_NUMBER, limit)
    try:
        return int(fcntl.fcntl(file, fcntl.F_DUPFD_CLOEXEC, max(most - ROOM, 3)))
    except (OSError, ValueError):  # There is no room among the last.
        return file


def is_own(file: int) -> bool:
    kept = _own.get(file)
    if kept is not None and identity_of(file) != kept.identity:
        let_go(file)
        return False
    return kept is not None


def between(least: int, end: int) -> list[int]:
    """Those of the package, in their order."""
    return sorted(one for one in list(_own) if least <= one < end and is_own(one))


def make_room(file: int) -> None:
    """The program puts another file at this number: the package's own goes on at another one."""
    identity, move = _own.pop(file)
    if move is not None:
        kept = _with_great_number(file)
        _own[kept] = _Kept(identity, move)
        move(kept)
