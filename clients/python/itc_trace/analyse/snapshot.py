"""Writes an export of a tenant while it runs, by the questions of a view."""

from __future__ import annotations

import time
from collections.abc import Iterator
from typing import TextIO

from ..record.collector import HOST, MOST_EVENTS, MOST_MESSAGES, MOST_TASKS
from ..session import LONGEST_ANSWER, Refused, Session
from .trace import Asked

EVENTS_AT_ONCE = 256
TRIES = 200
REST = 0.05
NO_PLACE = "422"


def snapshot(tenant: str, port: int, output: TextIO, host: str = HOST) -> int:
    """Writes as many events as there are now, and gives their number.

    The header has the greatest limits, which hold any trace.
    """
    with Session(tenant, port, "view", host, LONGEST_ANSWER) as view:
        events = int(_asked(view, ["count"])[0].split()[1])
        write_export(view, events, tenant, output)
    return events


def write_export(view: Asked, events: int, tenant: str, output: TextIO) -> None:
    """Writes the first events of a tenant."""
    output.write(
        f'{{"events":{MOST_EVENTS},"messages":{MOST_MESSAGES},"tasks":{MOST_TASKS},"tenant":"{tenant}","version":2}}\n'
    )
    for first in range(1, events + 1, EVENTS_AT_ONCE):
        numbers = range(first, min(first + EVENTS_AT_ONCE, events + 1))
        output.write("".join(_lines(view, numbers)))


def _lines(view: Asked, numbers: range) -> Iterator[str]:
    questions = [question for number in numbers for question in (f"event {number}", f"stamp {number}")]
    replies = iter(_asked(view, questions))
    for number in numbers:
        _, kind, task, name, _, *preds = next(replies).split()
        stamp = next(replies).split()[1]
        yield (
            f'{{"event":{number},"kind":"{kind}","name":"{name}","preds":[{",".join(preds)}],'
            f'"stamp":"{stamp}","task":"{task}"}}\n'
        )


def _asked(view: Asked, questions: list[str]) -> list[str]:
    """The replies to these questions. What finds no place right now is asked again."""
    replies = list(view.ask(questions))
    for _ in range(TRIES):
        again = [place for place, reply in enumerate(replies) if reply.startswith(NO_PLACE)]
        if not again:
            break
        time.sleep(REST)
        for place, reply in zip(again, view.ask(questions[place] for place in again)):
            replies[place] = reply
    for question, reply in zip(questions, replies):
        if not reply.startswith("200 "):
            raise Refused(question, reply)
    return replies
