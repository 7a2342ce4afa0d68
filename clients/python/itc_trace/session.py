"""A session of a program with the collector: reports what tasks do, and asks how events are ordered.

This file stands alone: it may be copied into a project without the rest of the package.
"""

from __future__ import annotations

import socket
import threading
from collections.abc import Iterable, Iterator
from types import TracebackType
from typing import TextIO

ACCEPTED = ("200", "201")
QUESTIONS_AT_ONCE = 512
LONGEST_ANSWER = 120.0
"""So many seconds whoever lists races waits for a reply."""


class Refused(Exception):
    """A request was refused: its code and text, as in `401 no task`."""

    def __init__(self, request: str, reply: str) -> None:
        super().__init__(f"{request}: {reply}")
        self.reply = reply
        self.code: int = int(reply[:3]) if reply[:3].isdigit() else 0


class Session:
    """A connection to one tenant. Any thread may use it; a request waits until the one before it is answered."""

    def __init__(
        self, tenant: str, port: int, kind: str = "report", host: str = "127.0.0.1", answer_wait: float | None = None,
    ) -> None:
        """With the kind "report" it reports and asks, and is the only one that does; with "view" it asks.

        A reply that takes more seconds than `answer_wait` is a TimeoutError. With None it waits for ever.
        """
        self._lock = threading.Lock()
        self._socket = socket.create_connection((host, port), answer_wait)
        self._socket.setsockopt(socket.IPPROTO_TCP, socket.TCP_NODELAY, 1)
        self._replies: TextIO = self._socket.makefile("r", encoding="ascii", newline="\n")
        try:
            self._answer(f"{kind} {tenant}", "count")  # A session that is refused is told so in place of the count.
        except BaseException:
            self.close()
            raise

    def close(self) -> None:
        self._replies.close()
        self._socket.close()

    def __enter__(self) -> Session:
        return self

    def __exit__(
        self, kind: type[BaseException] | None, error: BaseException | None, trace: TracebackType | None
    ) -> None:
        self.close()

    def request(self, line: str) -> list[str]:
        """The words of the reply to one line, after its code."""
        return self._answer(line)

    def ask(self, lines: Iterable[str]) -> Iterator[str]:
        """The whole replies to these lines, in their order. Many are on their way at once; none raises Refused."""
        waiting: list[str] = []
        for line in lines:
            waiting.append(line)
            if len(waiting) == QUESTIONS_AT_ONCE:
                yield from self._ask_all(waiting)
                waiting.clear()
        if waiting:
            yield from self._ask_all(waiting)

    def _ask_all(self, lines: list[str]) -> list[str]:
        with self._lock:
            try:
                self._socket.sendall("".join(f"{line}\n" for line in lines).encode())
                replies = [self._replies.readline() for _ in lines]
            except BaseException:
                self.close()
                raise
        if not replies[-1].endswith("\n"):
            raise ConnectionError("the collector has ended the session")
        return [reply[:-1] for reply in replies]

    def _answer(self, *lines: str) -> list[str]:
        """The words of the one reply to these lines."""
        if any("\n" in line for line in lines):
            raise Refused(lines[0], "400 line")  # It would be read as two, and answered twice.
        with self._lock:
            try:
                self._socket.sendall("".join(f"{line}\n" for line in lines).encode())
                reply = self._replies.readline()
            except BaseException:
                self.close()  # The next request would be given the reply to this one.
                raise
        if not reply.endswith("\n"):
            raise ConnectionError("the collector has ended the session")
        if reply[:3] not in ACCEPTED:
            raise Refused(lines[0], reply.rstrip("\n"))
        return reply[4:].split()

    def _number(self, line: str) -> int:
        return int(self.request(line)[0])

    def _numbers(self, line: str) -> list[int]:
        return [int(word) for word in self.request(line)]

    # Reports: each gives the number of its event.

    def local(self, task: str) -> int:
        return self._number(f"local {task}")

    def spawn(self, task: str, child: str) -> int:
        return self._number(f"spawn {task} {child}")

    def send(self, task: str, message: str) -> int:
        return self._number(f"send {task} {message}")

    def recv(self, task: str, message: str) -> int:
        return self._number(f"recv {task} {message}")

    def end(self, task: str) -> int:
        return self._number(f"end {task}")

    def join(self, task: str, child: str) -> int:
        return self._number(f"join {task} {child}")

    # Queries.

    def order(self, a: int, b: int) -> str:
        """How event a stands to event b: "same", "before", "after" or "concurrent"."""
        return self.request(f"order {a} {b}")[0]

    def past(self, event: int) -> list[int]:
        """The events that happened before this one."""
        return self._numbers(f"past {event}")[1:]

    def concurrent(self, event: int) -> list[int]:
        """The events that happened neither before this one nor after it."""
        return self._numbers(f"concurrent {event}")[1:]

    def cut(self, event: int) -> list[int]:
        """Of each task the last event that this one knows of, increasing; the event itself is among them."""
        return self._numbers(f"cut {event}")[1:]

    def event(self, event: int) -> tuple[str, str, str, list[int]]:
        """The kind, the task, the task or message that is named or "-", and the events that it follows."""
        kind, task, name, _, *follows = self.request(f"event {event}")
        return kind, task, name, [int(one) for one in follows]

    def stamp(self, event: int) -> str:
        return self.request(f"stamp {event}")[0]

    def task(self, task: str) -> tuple[str, int]:
        """ "live", "ended" or "joined", and the task's last event."""
        state, last = self.request(f"task {task}")
        return state, int(last)

    def message(self, message: str) -> tuple[int, list[int]]:
        """The event that sent it, and the events that received it."""
        sent, _, *received = self._numbers(f"message {message}")
        return sent, received

    def count(self) -> tuple[int, int, int]:
        """How many events, tasks and messages there are."""
        events, tasks, messages = self._numbers("count")
        return events, tasks, messages
