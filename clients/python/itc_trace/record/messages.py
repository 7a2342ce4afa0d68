"""Messages between processes that report to one tenant."""

from __future__ import annotations

import re
from types import CodeType, FrameType

from ..model.file_names import name_of_file
from ..model.frames import line_of, place
from ..model.lines import RECV, SEND, Permit, Reporter, state
from ..model.lock_identity import LockIdentity
from ..model.verdict import Cause, Unseen
from .noting import current
from .waiting import ANSWER_WAIT, Waiter

HEADER = "Itc-Trace"
"""The header of HTTP that has the name of a message."""
NAME = re.compile(r"[A-Za-z0-9_]{1,24}")
MOST_WORDS = 80


def words_of_request(method: str, target: str) -> str:
    """What a person calls a request, as `GET /stock`.

    The query is left out: it may have what nobody else is to read.
    """
    without_host = re.sub(r"^[A-Za-z][A-Za-z0-9+.-]*://[^/?#]*", "", target)
    path = re.sub(r"[?#].*", "", without_host, flags=re.DOTALL) or "/"
    return f"{method} {path}"[:MOST_WORDS]


class Sending:
    """A message that is on its way to the collector. Its name is handed on once the collector has it."""

    def __init__(self, message: str, waiter: Waiter, tracer: Reporter, where: tuple[CodeType | None, int]) -> None:
        self._message = message
        self._waiter = waiter
        self._tracer = tracer
        self._where = where

    @staticmethod
    def begin(
        frame: FrameType | None, words: str = "to another process", message: str | None = None,
        lock: LockIdentity | None = None, permit: Permit | None = None,
    ) -> Sending | None:
        """Sends a message from here, which carries what the words say. None where tracing is off.

        It has a name of its own, unless it is given one that nobody else has. It may hand over a lock or a
        permit.
        """
        note, tracer = state.note, state.tracer
        if note is None or tracer is None:
            return None
        waiter, where = Waiter(), place(frame)
        message = message or tracer.fresh_message()
        note((SEND, current(), message, f"send {words}", waiter, *where, lock, permit))
        tracer.look_after(waiter)
        return Sending(message, waiter, tracer, where)

    def name(self) -> str | None:
        """It waits for the collector.

        None if that does not answer: then nobody comes after the message, and that is told.
        """
        if self._waiter.wait(ANSWER_WAIT):
            return self._message
        self._tracer.miss(
            Unseen(
                Cause.COLLECTOR,
                f"{self._words()} was not followed: the collector did not answer within {ANSWER_WAIT:g} s",
            )
        )
        return None

    def _words(self) -> str:
        code, instruction = self._where
        if code is None:
            return "a message"
        return f"the message of {name_of_file(code.co_filename)}:{line_of(code, instruction)}"


def incoming_at(
    message: str | None, frame: FrameType | None, words: str = "from another process", lock: LockIdentity | None = None,
    permit: Permit | None = None,
) -> None:
    note = state.note
    if note is not None and message is not None and NAME.fullmatch(message):
        note((RECV, current(), message, f"receive {words}", *place(frame), lock, permit))
