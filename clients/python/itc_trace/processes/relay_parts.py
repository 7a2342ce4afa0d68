"""Divides the trace of a relay into parts, each at a collector of its own, if all who report know of parts.

`docs/long-runs.md` has the law. The relay sees each report and its reply, and so knows what a new part has to begin
with. Who reports tells by `forget MESSAGE` and `leave TASK` what gives no order any more. These lines are not answered.
A reply of a later part has its number behind that of the event.
"""

from __future__ import annotations

import json
import re
from collections.abc import Callable

from ..record.dividing import GOES_ON, LEAVE, MOST_NEW_TASKS, Border, Divider, Limits, Report
from ..record.journal import border_row
from ..record.tracer_parts import MOST_ENDED, MOST_OUTSIDE

PARTS, FORGET, LEAVES = b"parts", b"forget ", b"leave "
TAKEN = b"201 "
REFUSED = b"421 the trace has several parts, of which this client knows nothing\n"
OUTSIDE = re.compile(r"_out_?\d+$")
KINDS = frozenset(("local", "spawn", "send", "recv", "end", "join"))


class RelayParts:
    """The parts of a trace that several processes report to."""

    def __init__(self, next_port: Callable[[], int], journal: str, limits: Limits = LEAVE) -> None:
        """The port of a further collector is asked for. The rows of the borders are added to the journal."""
        self._next_port = next_port
        self._journal = journal
        self._limits = limits
        self._divider = Divider()
        self._forgotten: set[str] = set()
        self._left: set[str] = set()
        self._joined: set[str] = set()
        self._sent = (0, 1, 0)
        self.number = 1
        self.is_shared = False
        """Whether somebody reports who knows of no parts. Then there is no further one."""

    def fitting(self, lines: list[bytes]) -> tuple[list[bytes], list[bytes]]:
        """The lines that may be sent, so that the part is not too full by them, and those behind.

        The first ones count as sent.
        """
        sent: list[bytes] = []
        for place, line in enumerate(lines):
            if line.startswith((FORGET, LEAVES)):
                self._forget(line)
            elif self.has_room_for(line):
                self._sent = self._with(line)
                sent.append(line)
            else:
                return sent, lines[place:]
        return sent, []

    def has_room_for(self, line: bytes) -> bool:
        if self.is_shared or line.startswith((FORGET, LEAVES)):
            return True
        new_tasks = self._divider.tasks_before + MOST_NEW_TASKS
        most = (self._limits.events, min(self._limits.tasks, new_tasks), self._limits.messages)
        return all(count <= bound for count, bound in zip(self._with(line), most))

    def _with(self, line: bytes) -> tuple[int, int, int]:
        events, tasks, messages = self._sent
        return events + 1, tasks + line.startswith(b"spawn "), messages + line.startswith(b"send ")

    def _forget(self, line: bytes) -> None:
        """Nobody receives this message any more, or waits for this task."""
        kind, _, name = line.decode("ascii", "replace").partition(" ")
        (self._forgotten if kind == "forget" else self._left).add(name)

    def answered(self, line: bytes, reply: bytes) -> bytes:
        """Takes over what the collector has answered to a line. Gives the reply as the one who asked is to have it."""
        words = line.decode("ascii", "replace").split()
        if not reply.startswith(TAKEN) or not words or words[0] not in KINDS:
            return reply
        report = Report(words[0], words[1], words[2] if len(words) > 2 else "")
        if self._divider.report(report) != int(reply[len(TAKEN):]):
            self.is_shared = True  # Somebody else reports to this collector, too.
        if report.kind == "join":
            self._joined.add(report.name)
        return reply if self.number == 1 else b"%s %d" % (reply, self.number)

    def settle(self) -> None:
        """All that was sent is answered."""
        self._sent = (self._divider.events, self._divider.tasks, self._divider.messages)

    def divide(self) -> tuple[int, list[bytes]]:
        """Begins the next part. Gives its port, and the lines that it begins with."""
        messages, ended = self._receivable(), self._joinable()
        border = self._divider.divide(messages.__contains__, ended.__contains__)
        for known in (self._forgotten, self._left, self._joined):
            known.clear()
        self.number += 1
        self.settle()
        self._write(border)
        # Too much goes on from part to part: the trace will be full.
        self.is_shared = self._divider.is_full(self._limits)
        return self._next_port(), [report.request.encode() for report in border.reports]

    def _receivable(self) -> set[str]:
        """The messages that are taken along. Of those that were handed out by name it is the last ones."""
        known = [message for message in self._divider.messages_sent if message not in self._forgotten]
        outside = [message for message in known if OUTSIDE.search(message)]
        return set(known).difference(outside[:-MOST_OUTSIDE])

    def _joinable(self) -> set[str]:
        return set(
            [task for task in self._divider.ended if task not in self._left and task not in self._joined][-MOST_ENDED:]
        )

    def _write(self, border: Border) -> None:
        with open(self._journal, "a", encoding="utf-8") as journal:
            journal.write(border_row(self.number, border))
            for event, report in enumerate(border.reports, 1):
                journal.write(_row(event, self.number, report))


def _row(event: int, part: int, report: Report) -> str:
    told = {
        "event": event, "part": part, "task": report.task, "thing": None, "kind": report.kind, "file": None, "line": 0,
        "label": GOES_ON, "of": report.name,
    }
    return json.dumps(told, separators=(",", ":")) + "\n"
