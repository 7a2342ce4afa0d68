"""A trace as its collector tells it: all events, which ones each follows, and so all that come before it."""

from __future__ import annotations

from collections.abc import Callable, Iterable, Mapping, Set
from functools import cached_property
from types import MappingProxyType
from typing import NamedTuple, Protocol

from ..session import Refused


class Asked(Protocol):
    """Whoever answers many requests in their order, as a session does."""

    def ask(self, lines: Iterable[str]) -> Iterable[str]: ...


class Event(NamedTuple):
    """An event as the collector tells it. The name is that of a task or a message, if it has one."""

    number: int
    kind: str
    task: str
    name: str
    follows: tuple[int, ...]

    @property
    def report(self) -> str:
        return f"{self.kind} {self.task}" if self.name == "-" else f"{self.kind} {self.task} {self.name}"


Events = int
"""A set of events: the bit of each event's number is set."""


def lowest(events: Events) -> int:
    """The first event of a set that is not empty."""
    return (events & -events).bit_length() - 1


class Trace:
    """The first events of a tenant, each asked for once."""

    def __init__(self, view: Asked, count: int) -> None:
        self.events: list[Event] = []
        for number, reply in enumerate(view.ask(f"event {number}" for number in range(1, count + 1)), 1):
            words = reply.split()
            if words[0] != "200":
                raise Refused(f"event {number}", reply)
            self.events.append(Event(number, words[1], words[2], words[3], tuple(map(int, words[5:]))))

    def __getstate__(self) -> dict[str, object]:
        """What comes before each event is told by which ones it follows, and takes far more room."""
        return {"events": self.events}

    def __getitem__(self, number: int) -> Event:
        return self.events[number - 1]

    @cached_property
    def before(self) -> list[Events]:
        """Of each event those before it: what it follows, as the collector tells, and what comes before that."""
        before = [0]
        for event in self.events:
            known = 0
            for one in event.follows:
                known |= before[one] | 1 << one
            before.append(known)
        return before

    def unordered(self, number: int) -> Events:
        """The earlier reports that do not come before this event."""
        return ~self.before[number] & ((1 << number) - 2)

    def source(self, event: Event) -> Event | None:
        """What a receipt or a join takes in: who sent the message, or the end of the task."""
        for one in (self[number] for number in event.follows):
            is_message = event.kind == "recv" and (one.kind, one.name) == ("send", event.name)
            if is_message or event.kind == "join" and one.task == event.name:
                return one
        return None

    def previous(self, event: Event) -> int:
        """The event that its own task did before, or that started the task. 0 if there is none."""
        source = self.source(event)
        return next((one for one in event.follows if source is None or one != source.number), 0)


class LazyTrace:
    """A trace that is asked for once it is wanted, and not again."""

    def __init__(self, view: Asked, count: int) -> None:
        self.view = view
        self._count = count

    @cached_property
    def whole(self) -> Trace:
        return Trace(self.view, self._count)

    @property
    def questions(self) -> int:
        """How many questions that took."""
        return self._count if "whole" in vars(self) else 0


def lock_events(trace: Trace, numbers: Iterable[int]) -> set[int]:
    """The hand-over of locks: the messages that these events send or receive, with all their receipts."""
    chosen = set(numbers)
    messages = {event.name for event in trace.events if event.kind == "send" and event.number in chosen}
    return {event.number for event in trace.events if event.kind in ("send", "recv") and event.name in messages}


class Steps(NamedTuple):
    """The receipts by which a task comes to know of others in another
    way than by what was meant to put them in order."""

    locks: set[int]
    requests: set[int]
    """Those of what the process asks itself. They are among the locks, as the answers are."""
    answers: set[int]
    looks: Mapping[int, Events] = MappingProxyType({})
    """What the task of an event knows by a look at what another one has left under a lock."""
    polls: Set[int] = frozenset()
    """Joins by a poll of the library. Whoever polls comes after the end, and what it starts does so by luck."""


class Told(NamedTuple):
    """What the task of each event knows by what was meant to tell it, and what of that it hands on by a request."""

    known: list[Events]
    before: list[Events]
    """What is not known by an answer alone."""


def told_by_signals(trace: Trace, steps: Steps) -> Told:
    """Of each event what its task knows by anything but a lock: by what the last step of the way to it was.

    A lock may have had its part before. If the last of many workers, by a count under a lock, sets an event, whoever
    waits for the event comes after all of them, and was meant to. A request tells of what whoever asks knows but by
    answers. A start tells of what whoever starts knows but by polls.
    """
    told, by_no_answer, by_no_poll = [0], [0], [0]
    for event in trace.events:
        source, known = trace.source(event), steps.looks.get(event.number, 0)
        handed_on = without_polls = known
        for one in event.follows:
            if source is None or one != source.number:
                is_started = trace[one].task != event.task
                met = by_no_poll[one] if is_started else told[one]
                known |= met | 1 << one
                handed_on |= (by_no_answer[one] & met) | 1 << one
                without_polls |= by_no_poll[one] | 1 << one
            elif event.number in steps.answers:
                known |= trace.before[one] | 1 << one
                without_polls |= trace.before[one] | 1 << one
            elif event.number in steps.polls:
                known |= trace.before[one] | 1 << one
                handed_on |= trace.before[one] | 1 << one
            elif event.number in steps.requests or event.number not in steps.locks:
                met = (by_no_answer[one] if event.number in steps.requests else trace.before[one]) | 1 << one
                known |= met
                handed_on |= met
                without_polls |= met
        told.append(known)
        by_no_answer.append(handed_on)
        by_no_poll.append(without_polls)
    return Told(told, by_no_answer)


def lock_that_tells(trace: Trace, locks: set[int], first: int, second: int) -> int | None:
    """The receipt of a lock by which the task of the second event came to know of the first event."""
    event = trace[second]
    while True:
        previous = trace.previous(event)
        if previous <= first or not trace.before[previous] >> first & 1:
            return event.number if event.number in locks else None
        event = trace[previous]


Unordered = Callable[[int], Events]
"""Gives of an event the earlier ones that are not in order with it."""
