"""The tasks that the end of the program waits for: threads, and jobs of pools."""

from __future__ import annotations

from collections.abc import Callable

from ..model.lines import Line

_awaited: list[Line] = []


def await_at_exit(line: Line) -> None:
    line.is_awaited = True
    _awaited.append(line)


def await_nobody() -> None:
    """Where tracing begins: the threads of an earlier tracing have no task in this one."""
    _awaited.clear()


def take_awaited(is_over: Callable[[Line], bool]) -> list[Line]:
    """Takes out those that are over. Others may be added meanwhile."""
    count = len(_awaited)
    known = _awaited[:count]
    over = [line for line in known if is_over(line)]
    left = set(known).difference(over)
    _awaited[:count] = [line for line in known if line in left]
    return over


def awaited() -> list[Line]:
    return list(_awaited)
