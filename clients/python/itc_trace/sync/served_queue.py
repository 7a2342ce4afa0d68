"""The queue that the server of a manager keeps for a program. With each item goes the message of who has put it.

The server is not traced. What is told here, as each process that puts or gets knows it, is handed on by the queue.
"""

from __future__ import annotations

import queue
import threading
from collections import deque
from typing import Any, NamedTuple

from .base import name_as
from .queues import MOST_PLACES

BY = "itc_by"
"""The word by which whoever asks brings a message of his own, and says that he knows of those of others."""
_own = threading.local()


class By(NamedTuple):
    """Who asks: the task, and the message of what it has done. Without a message it does not matter what that was."""

    task: str
    message: str


class _Item(NamedTuple):
    item: Any
    message: str


def _plain(name: str) -> Any:
    """A method of the queues of `queue`, as it is where nothing is traced."""
    method = getattr(queue.Queue, name)
    return getattr(method, "__wrapped__", method)


class ServedQueue(queue.Queue[Any]):
    """Behaves as any queue to whoever brings no message."""

    def __init__(self, maxsize: int = 0) -> None:
        _plain("__init__")(self, maxsize)
        has_few = type(maxsize) is int and 0 < maxsize <= MOST_PLACES
        self._room = deque([""] * maxsize) if has_few else None
        """Of each place that is free the message of who has made it so."""
        self._done: dict[str, str] = {}
        """The last message of each task that has said that an item is done."""

    def _put(self, item: Any) -> None:
        self.queue.append(item)
        _own.room = self._room.popleft() if self._room else ""

    def _get(self) -> Any:
        item = self.queue.popleft()
        if self._room is not None:
            self._room.append(getattr(_own, "message", ""))
        return item

    def put(self, item: Any, block: bool = True, timeout: float | None = None, *, itc_by: By | None = None) -> Any:
        """Gives the message of who has made the room, if whoever puts has brought one."""
        _plain("put")(self, _Item(item, "" if itc_by is None else itc_by.message), block, timeout)
        return None if itc_by is None else _own.room

    def get(self, block: bool = True, timeout: float | None = None, *, itc_by: By | None = None) -> Any:
        """Gives the item, and beside it the message of who has put it."""
        _own.message = "" if itc_by is None else itc_by.message
        found = _plain("get")(self, block, timeout)
        return found.item if itc_by is None else tuple(found)

    def put_nowait(self, item: Any, *, itc_by: By | None = None) -> Any:
        return self.put(item, False, itc_by=itc_by)

    def get_nowait(self, *, itc_by: By | None = None) -> Any:
        return self.get(False, itc_by=itc_by)

    def task_done(self, *, itc_by: By | None = None) -> None:
        if itc_by is not None:
            with self.mutex:
                self._done[itc_by.task] = itc_by.message
        _plain("task_done")(self)

    def join(self, *, itc_by: By | None = None) -> Any:
        """Gives the messages of all who have said that an item is done."""
        with self.all_tasks_done:
            while self.unfinished_tasks:
                self.all_tasks_done.wait()
            return None if itc_by is None else list(self._done.values())


name_as(ServedQueue, "Queue", "queue")


def made_queue(maxsize: int = 0) -> Any:
    """What a server calls in place of `queue.Queue`."""
    return ServedQueue(maxsize)
