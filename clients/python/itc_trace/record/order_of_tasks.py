"""The order of tasks: which notes become messages, spawns, ends and joins, and which are known already."""

from __future__ import annotations

import itertools
from collections import defaultdict, deque
from collections.abc import Callable
from sys import getrefcount
from types import CodeType

from ..model.lines import (
    END, END_OF_PROCESS, GONE, JOIN, MOST_PENDING, POLLED, RESULT, TAKE, TAKE_END, Line, Note, Permit, PermitToken,
    Reporter, Token,
)
from ..model.lock_identity import Asking, LockIdentity, LockOrAsking, Poll
from ..model.loop_runs import STOPS, LoopRun
from ..model.verdict import Cause, Unseen
from .awaited import await_at_exit, take_awaited
from .names import Names
from .nurseries import Nurseries
from .reports import Outstanding, Reports
from .tracer_parts import Parts
from .waiting import Waiter

KEEPER = "ended threads"
"""What the task is called that comes after the threads that nobody joins."""
KEEPER_OF_LOOP = "ended tasks"
"""What the task is called that comes after the tasks of a loop that nobody waits for."""


def _references_of_nobody() -> int:
    """How many references a thing has that only one list knows, while it is looked at."""
    things = [object()]
    for thing in things:
        return getrefcount(thing)
    return 0


REFERENCES_OF_NOBODY = _references_of_nobody()


def _forget_lost(line: Line) -> None:
    """Leaves out the tokens that nobody can take any more, as their locks, queues and events are gone."""
    line.pending = [token for token in line.pending if getrefcount(token) > REFERENCES_OF_NOBODY]
    line.most_pending = max(MOST_PENDING, 2 * len(line.pending))


def _number(line: Line) -> int:
    return line.number


def _is_for_pool(line: Line) -> bool:
    """Whether it is a job that the keeper of its pool will take in, and nobody has joined it yet.

    Whoever takes its result comes after a message of it. If he joined it, the end of the pool came after him, too.
    """
    return line.pool is not None and line.joined_by is None and not line.pool.is_gone


def _is_thread_to_end(line: Line) -> bool:
    """Whether it is a thread that does nothing more, and that nobody has seen to be over yet."""
    return line.end_token is not None and line.end_token.what is END and not line.has_ended


SOURCES = {"recv": "send ", "join": "end "}
"""What a task takes in, by how it does so: a message that was sent, or the end of another task."""


def _lock_of(poll: Asking | Poll | None) -> Asking | None:
    """What a poll of the library is told of as."""
    return poll if isinstance(poll, Asking) else None


class OrderOfTasks:
    """Reports what orders tasks. A release becomes a message once somebody may still take it and its task goes on."""

    def __init__(
        self, reporter: Reporter, reports: Reports, names: Names, parts: Parts | None,
        give_up: Callable[[Cause, str], object]
    ) -> None:
        self._reporter = reporter
        self._reports = reports
        self._names = names
        self._parts = parts
        self._give_up = give_up
        self._message_numbers = itertools.count(1)
        self._finished: list[Line] = []
        self._going_on = 1
        """How many tasks of this process may still do something."""
        self._takes_left: defaultdict[Line, int] = defaultdict(int)
        """How often each task is still waited for, by the notes that are looked at."""
        self._gone_soon: set[Line] = set()
        self._keeper: Line | None = None
        self._polled: set[tuple[Line, Line]] = set()
        """Which tasks have seen by a poll of the library that another one is over, by the message of its end."""
        self._received: set[tuple[Line, str]] = set()
        """Which messages and ends tasks have received by polls of the program. None is received twice."""
        self.nurseries = Nurseries(reporter, reports, names, self._message_numbers.__next__)

    def look_ahead(self, batch: deque[tuple[float, Note]]) -> None:
        """Looks notes through for how often each task is waited for, and which ones nobody can wait for after that."""
        takes = self._takes_left
        for _, note in batch:
            kind = note[0]
            if kind == TAKE:
                takes[note[2].line] += 1
            elif kind in (TAKE_END, JOIN):
                takes[note[2]] += 1
            elif kind == GONE:
                self._gone_soon.add(note[1])

    def looked_at(self) -> None:
        """All notes that were looked ahead at have been reported."""
        self._gone_soon.clear()

    def end_finished(self) -> None:
        """At the end of the session: the tasks that are done have their ends."""
        self.nurseries.end()
        for line in self._finished:
            if not line.has_ended and line.name:
                line.pending.clear()
                self.end(line, END.giving)

    def forget_ended(self) -> None:
        """At a border: what has ended is finished for good."""
        self._finished = [line for line in self._finished if not line.has_ended]
        self._polled.clear()
        self._received.clear()

    def _is_waited_for(self, line: Line) -> None:
        """One of those who wait for it is being looked after."""
        self._takes_left[line] -= 1
        if not self._takes_left[line]:
            del self._takes_left[line]

    def may_be_asked_for(self, line: Line) -> bool:
        """Whether somebody may still wait for the task, after those who were looked after."""
        return line in self._takes_left or not (line.is_gone or line in self._gone_soon)

    def _send(self, line: Line, token: Token) -> None:
        """Reports a message for all tokens of the same kind that were noted at the place where the line is.

        A message of a lock is for tokens of this lock alone, so that the order without locks is told in full beside it.
        """
        message = f"{self._reporter.prefix}{token.what.hint}_{next(self._message_numbers)}"
        lock = token.what.lock
        report = self._reports.report(
            line, "send", message, token.code, token.instruction, token.what.giving, lock, token.time,
        )
        if isinstance(token, PermitToken):
            report.permit = token.permits, token.number
        self._sent(line, message, lock)

    def _sent(self, line: Line, message: str, lock: LockOrAsking | None) -> None:
        line.message, line.lock = message, lock
        sent = [token for token in line.pending if token.what.lock is lock]
        if len(sent) == len(line.pending):
            line.pending = []
        else:
            line.pending = [token for token in line.pending if token.what.lock is not lock]
        if self._parts is not None:
            self._parts.sent(message, lock, sent)
        for token in sent:
            token.message = message
            token.count = line.count

    def leave(self, line: Line) -> None:
        """Before the line goes on: where somebody may still take one of its tokens, they become a message."""
        while line.pending:
            for token in line.pending:
                if getrefcount(token) > REFERENCES_OF_NOBODY and token is not line.end_token:
                    break
            else:
                break
            self._send(line, token)
        line.pending.clear()

    def _receive(
        self, line: Line, token: Token, code: CodeType | None, instruction: int, poll: Poll | None = None,
    ) -> None:
        if line.pending:
            self.leave(line)
        assert token.message is not None
        lock = token.what.lock
        report = self._take_in(line, "recv", token.message, code, instruction, token.what.taking, lock, poll)
        if isinstance(token, PermitToken) and line in token.takers:
            report.permit = token.permits, token.takers[line]
        self._learns(line, token.line, token.count, poll or lock)

    def _take_in(
        self, line: Line, kind: str, name: str, code: CodeType | None, instruction: int, label: str,
        lock: LockOrAsking | None, poll: Asking | Poll | None,
    ) -> Outstanding:
        """The line receives a message, or joins a task.

        Once it has done so by a poll, it knows more by a local event.
        """
        if not isinstance(poll, Poll) and not self._received:
            return self._reports.report(line, kind, name, code, instruction, label, lock)
        source = f"{SOURCES[kind]}{name}"
        is_again = (line, source) in self._received
        if is_again:
            kind, name = "local", ""
        report = self._reports.report(line, kind, name, code, instruction, label, lock)
        report.again = source if is_again else ""
        if isinstance(poll, Poll):
            report.poll = poll
            self._received.add((line, source))
        return report

    def mark(self, token: Token) -> None:
        line = token.line
        token.count, token.time = line.count, self._reports.time
        if line.message is not None and line.lock is token.what.lock:
            token.message = line.message
            if self._parts is not None:
                self._parts.sent(line.message, line.lock, [token])
        elif not line.has_ended:  # Else it sends nothing any more.
            line.pending.append(token)
            if len(line.pending) >= line.most_pending:
                _forget_lost(line)

    def take(
        self, line: Line, token: Token, code: CodeType | None, instruction: int, poll: Poll | None = None,
    ) -> None:
        self._is_waited_for(token.line)
        self._come_after(line, token, code, instruction, poll)

    def _come_after(
        self, line: Line, token: Token, code: CodeType | None, instruction: int, poll: Poll | None = None,
    ) -> None:
        source = token.line
        if source is line or self._knows(line, source, token.count) or self._knows_by_lock(line, token, poll):
            return
        if token is source.end_token and _is_thread_to_end(source):
            self._end_thread_for(line, source, poll)
        elif source.is_finished and token.message is None and not source.has_ended and self._is_last_taker(
            source, token
        ):
            self.leave(source)
            self.end(source, token.what.giving)
        is_to_join = token is source.end_token and source.joined_by is None
        if source.has_ended and (token.message is None or is_to_join):
            self._take_ended(line, source, code, instruction, token.what.taking, poll)
            return
        if token.message is None:
            self._send(source, token)
        if source.first_taker is None and token is source.end_token:
            source.first_taker = line
        self._receive(line, token, code, instruction, poll)

    def _knows(self, line: Line, source: Line, count: int) -> bool:
        """Whether it is plain that the line comes after so many events of the other. Others are asked for."""
        if count > 0:
            return line.known.get(source, 0) >= count
        parent = source.parent
        if parent is None:
            return source.parent_count == 0
        return parent is line or line.known.get(parent, 0) >= source.parent_count

    def _knows_by_lock(self, line: Line, token: Token, poll: Poll | None) -> bool:
        """Whether the line has taken the lock from the other one since, or has asked the same."""
        return bool(line.known_by_locks) and self._knows_by_luck(line, token.line, poll or token.what.lock, token.count)

    def _knows_by_luck(self, line: Line, source: Line, lock: LockOrAsking | Poll | None, count: int) -> bool:
        return lock is not None and line.known_by_locks.get((source, lock), -1) >= count

    def _is_last_taker(self, source: Line, token: Token) -> bool:
        """Whether the task, which is finished, is at its end, and nobody but whoever asks now can wait for it."""
        is_at_end = token is source.end_token and token.count == source.count
        return is_at_end and not self.may_be_asked_for(source) and not _is_for_pool(source)

    def take_end(
        self, line: Line, source: Line, code: CodeType | None, instruction: int, poll: Poll | None = None,
    ) -> None:
        """The line has seen that the other one is done."""
        self._is_waited_for(source)
        self._is_done(source)
        if source.end_token is None:
            source.end_token = Token(source, RESULT, code, instruction)
            self.mark(source.end_token)
        self._come_after(line, source.end_token, code, instruction, poll)

    def _is_done(self, line: Line) -> None:
        if not line.is_finished:
            line.is_finished = True
            self._finished.append(line)
            self._going_on -= 1

    def spawn(self, parent: Line, child: Line, code: CodeType | None, instruction: int) -> Outstanding:
        self.leave(parent)
        child.name = self._names.new(child.hint)
        self._going_on += not child.is_process
        report = self.nurseries.spawn(parent, child, code, instruction)
        if self._parts is not None:
            self._parts.add(child)
        child.parent, child.parent_count = parent, parent.count
        child.known[parent] = parent.count
        return report

    def finish(self, line: Line, ends: bool) -> None:
        """The task does nothing more. A thread ends once somebody sees that, or nobody can."""
        self._is_done(line)
        if ends:
            self.leave(line)
            line.end_token = Token(line, END, None, 0)
            self.mark(line.end_token)
        if line is self._reporter.main:
            self._reports.report(line, "send", f"{self._reporter.prefix}{END_OF_PROCESS}", None, 0, END.giving)
        if line.is_gone:
            self.gone(line)

    def end_threads(self) -> None:
        """At a border: the threads that do nothing more end, with a message for those who may wait for them later."""
        for line in self._finished:
            if _is_thread_to_end(line):
                self._end_thread(line, self.may_be_asked_for(line))

    def _end_thread_for(self, line: Line, child: Line, poll: Asking | Poll | None = None) -> None:
        """The line has seen that the thread is over. If others may see that too, they come after a message.

        If no other task goes on, this one starts all that are to come, and they know what it knows. If it knows that by
        a poll, it may see it once more in another way.
        """
        child.is_known_to_all = self._going_on == 1 and poll is None
        is_for_main = child.is_awaited and not self._is_awaited(line)
        self._end_thread(child, not child.is_known_to_all and (is_for_main or self.may_be_asked_for(child)))

    def _end_thread(self, line: Line, is_told: bool) -> None:
        token = line.end_token
        assert token is not None
        if is_told and token.message is None:
            self._send(line, token)
        self.end(line, END.giving, token.time)

    def _is_awaited(self, line: Line) -> bool:
        """Whether the end of the program comes after this task."""
        return line.is_awaited or line is self._reporter.main

    def end(self, line: Line, label: str, time: float = 0.0) -> None:
        if not line.has_ended:
            line.has_ended = True
            self._reports.report(line, "end", "", None, 0, label, None, time)
            line.pending.clear()

    def join(
        self, line: Line, child: Line, code: CodeType | None, instruction: int, poll: Asking | Poll | bool = False,
        result: Token | None = None,
    ) -> None:
        """The line has joined the other one, or has seen by a poll that it is over.

        If it comes after the result that it has asked for, it was told nothing by that.
        """
        self._is_waited_for(child)
        if result is not None and self._knows(line, result.line, result.count):
            poll = False
        if child.is_process:
            child.has_ended, child.count = True, 1
        count, luck = max(child.count, 1), None if isinstance(poll, bool) else poll
        if child is line or self._knows(line, child, count) or self._knows_by_luck(line, child, luck, count):
            return
        if _is_thread_to_end(child):
            self._end_thread_for(line, child, luck)
        if child.has_ended:
            label = f"{POLLED if poll else 'join '}{child.name}"
            self._take_ended(line, child, code, instruction, label, luck)

    def _join_now(
        self, line: Line, child: Line, code: CodeType | None, instruction: int, label: str,
        poll: Asking | Poll | None = None,
    ) -> None:
        self.leave(line)
        report = self._take_in(line, "join", child.name, code, instruction, label, _lock_of(poll), poll)
        report.may_be_refused = child.is_process
        child.joined_by = line
        self.nurseries.joined(line, child)
        if child.loop_run is not None:
            child.loop_run.lines.discard(child)
        self._learns(line, child, child.count, poll)

    def _learns(self, line: Line, child: Line, count: int, lock: LockOrAsking | Poll | None) -> None:
        """The line comes after so many events of the other one: by luck, if that was by a lock or by a poll."""
        if lock is None:
            line.known[child] = count
        else:
            line.known_by_locks[child, lock] = count

    def _take_ended(
        self, line: Line, child: Line, code: CodeType | None, instruction: int, label: str,
        poll: Asking | Poll | None = None,
    ) -> None:
        token = child.end_token
        if child.is_forgotten:
            self._give_up(
                Cause.FULL, f"{child.name} was waited for long after its end, when its part of the trace had been left",
            )
        elif child.joined_by is None:
            self._join_now(line, child, code, instruction, label, poll)
        elif token is not None and token.message is not None:
            if not self._knows(line, child, token.count) and (line, child) not in self._polled:
                self._receive_end(line, child, token, code, instruction, label, poll)
        elif not (child.is_known_to_all or self._is_known_at_exit(line, child.joined_by)):
            text = f"{child.name} was waited for by one more than could be known, and this is in no order with it"
            self._reporter.miss(Unseen(Cause.TRACER, text))

    def _is_known_at_exit(self, line: Line, joiner: Line) -> bool:
        """Whether the line stands for the end of the program, and so comes after a task that has joined another one."""
        return line in (self._reporter.main, self._keeper) and self._is_awaited(joiner)

    def _receive_end(
        self, line: Line, child: Line, end: Token, code: CodeType | None, instruction: int, label: str,
        poll: Asking | Poll | None,
    ) -> None:
        """Another task has joined the child: the line comes after the message of its end."""
        assert end.message is not None
        self.leave(line)
        report = self._take_in(line, "recv", end.message, code, instruction, label, _lock_of(poll), poll)
        report.may_be_refused = child.is_process
        self._learns(line, child, end.count, poll)
        if isinstance(poll, Asking):
            self._polled.add((line, child))

    def gone(self, line: Line) -> None:
        """Nobody can wait for the task any more: it ends, and its place in the clock goes to whoever waited first."""
        line.is_gone = True
        if line.must_finish and not line.is_finished:
            return  # It still runs; its finish will be noted.
        self._is_done(line)
        if line.has_ended or not line.name:
            return
        self.leave(line)
        self.end(line, END.giving, 0.0 if line.end_token is None else line.end_token.time)
        taker = None if _is_for_pool(line) else line.first_taker
        if line.is_awaited and taker is not None and not self._is_awaited(taker):
            return  # The end of the program joins it.
        if taker is not None and not taker.is_finished and not taker.has_ended:
            self._join_now(taker, line, None, 0, f"join {line.name}")

    def leave_loop(self, line: Line, run: LoopRun, code: CodeType | None, instruction: int) -> None:
        """The line's thread goes on behind the run of a loop, after all that the loop's tasks did."""
        keeper = run.keeper
        for task in sorted(run.lines, key=_number):
            if task.has_ended:
                self._join_now(line, task, code, instruction, f"join {task.name}")
            elif task.name:
                token = Token(task, STOPS, code, instruction)
                self.mark(token)
                self._come_after(line, token, code, instruction)
        run.lines.clear()
        if keeper is not None:
            self.end(keeper, END.giving)
            self._join_now(line, keeper, code, instruction, f"join {keeper.name}")

    def send_outside(
        self, line: Line, message: str, label: str, waiter: Waiter, code: CodeType | None, instruction: int,
        lock: LockIdentity | None = None, permit: Permit | None = None,
    ) -> None:
        """A lock or a permit is one that processes share, and that the message hands over."""
        report = self._reports.report(line, "send", message, code, instruction, label)
        report.guard, report.permit = lock, permit
        self._reports.answer_to(waiter, report)
        self._sent(line, message, lock)
        if self._parts is not None:
            self._parts.sent_outside(message)

    def receive_outside(
        self, line: Line, message: str, label: str, code: CodeType | None, instruction: int,
        lock: LockIdentity | None = None, permit: Permit | None = None,
    ) -> None:
        """The same of a message of another process."""
        self.leave(line)
        report = self._reports.report(line, "recv", message, code, instruction, label)
        report.may_be_refused = True
        report.guard, report.permit = lock, permit

    def keep_ended(self) -> None:
        """Has a task of its own take the ends of those that the end of the program waits for,
        in place of all of them."""
        ended = [
            line for line in take_awaited(lambda line: line.has_ended and not _is_for_pool(line))
            if not self._knows(self._reporter.main, line, max(line.count, 1))
        ]
        if ended and self._keeper is None:
            self._keeper = Line(self._reporter, KEEPER)
            self.spawn(self._reporter.main, self._keeper, None, 0)
            await_at_exit(self._keeper)
        for line in ended:
            assert self._keeper is not None
            self._takes_left[line] += 1
            self.take_end(self._keeper, line, None, 0)

    def keep_ended_of_loops(self, lines: list[Line]) -> None:
        """Has a task for each run of a loop take the ends of those of the loop's tasks that nobody has waited for."""
        for line in lines:
            run = line.loop_run
            if run is not None and line.has_ended and line in run.lines:
                if run.keeper is None:
                    run.keeper = Line(self._reporter, KEEPER_OF_LOOP)
                    self.spawn(self._reporter.main, run.keeper, None, 0)
                self._join_now(run.keeper, line, None, 0, f"join {line.name}")
