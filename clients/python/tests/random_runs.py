"""Small runs by chance, whose order and races are known by looking at all events and all pairs."""

from __future__ import annotations

import itertools
import random
from collections import defaultdict
from collections.abc import Iterable, Iterator

from itc_trace.model.conflicts import ADDITION, CHANGING, CONFLICTING, ITERATION, LENGTH, MAKING, READ, WRITE
from itc_trace.record.journal import Row

LOCKS = ("#1 lock A (a.py:1)", "#2 lock B (a.py:2)")
MOST_TASKS = 5

Found = dict[tuple[str, str, str], int]
"""The thing and the two places of each race, and of how many pairs it is."""


class Event:
    """An event, and the ones that it follows: by its task, by being started, or by what it receives."""

    def __init__(self, number: int, kind: str, task: str, name: str, lock: str | None) -> None:
        self.number, self.kind, self.task, self.name, self.lock = number, kind, task, name, lock
        self.before = 0
        """The event that its own task did, or that started the task. 0 if there is none."""
        self.source = 0
        """What it receives or takes in."""


class Run:
    """Events and touches, and what is in order and what races by looking at all of them."""

    def __init__(self) -> None:
        self.events: list[Event] = []
        self.rows: list[Row] = []
        self._last: dict[str, int] = {"root": 0}

    def add(self, kind: str, task: str, name: str = "-", lock: str | None = None, source: int = 0) -> Event:
        event = Event(len(self.events) + 1, kind, task, name, lock)
        event.before, self._last[task] = self._last[task], event.number
        event.source = source
        if kind == "spawn":
            self._last[name] = event.number
        self.events.append(event)
        if kind != "local":
            self.rows.append(Row(event.number, task, None, kind, "a.py", 0, kind, lock=lock))
        return event

    def close(self) -> None:
        """Nothing more happens."""
        self._rows_at: dict[int, list[Row]] = defaultdict(list)
        for row in self.rows:
            self._rows_at[row.event].append(row)
        self._looks: dict[int, set[int]] = {}
        self.full = self._reach(with_locks=True)
        self.without_locks = self._reach(with_locks=False)

    # Order

    def _reach(self, with_locks: bool) -> list[int]:
        """Of each event the set of those before it, as bits."""
        reach = [0]
        for event in self.events:
            before = reach[event.before] | 1 << event.before if event.before else 0
            if event.source and (with_locks or event.lock is None):
                before |= reach[event.source] | 1 << event.source
            reach.append(before)
        return reach

    def is_before(self, first: int, second: int) -> bool:
        return bool(self.full[second] >> first & 1)

    def line(self, event: Event) -> Iterator[Event]:
        """The event and those before it, in its task and in those that its task comes from."""
        number = event.number
        while number:
            yield self.events[number - 1]
            number = self.events[number - 1].before

    def is_told_by_a_signal(self, first: int, second: int) -> bool:
        """Whether the last step of some way from the first event to the second one's task is no lock."""
        for event in self.line(self.events[second - 1]):
            if event.number == first:
                return True
            if event.source and event.lock is None and (event.source == first or self.is_before(first, event.source)):
                return True
            if any(first == write or self.is_before(first, write) for write in self._looks_at(event.number)):
                return True
        return False

    def _looks_at(self, number: int) -> set[int]:
        """The last writes by others under a lock that the event reads under, if it does not write there itself."""
        if number not in self._looks:
            self._looks[number] = {
                write.event for read in self._rows_at[number] if read.kind == READ and read.thing is not None and not read.name
                for lock in read.held for write in self._last_write(read, lock)
            }
        return self._looks[number]

    def _last_write(self, read: Row, lock: str) -> list[Row]:
        writes = [row for row in self.rows if (row.thing, row.kind) == (read.thing, WRITE) and lock in row.held]
        if any(row.event == read.event for row in writes):
            return []
        before = sorted((row for row in writes if self.is_before(row.event, read.event)), key=lambda row: row.event)
        return [row for row in before[-1:] if row.task != read.task]

    # Races, by looking at all pairs

    def touches(self) -> dict[str, list[Row]]:
        things: dict[str, list[Row]] = defaultdict(list)
        for row in self.rows:
            if row.thing is not None and row.kind != MAKING:
                things[row.thing].append(row)
        return things

    def pairs(self, touches: list[Row]) -> Iterator[tuple[Row, Row]]:
        for one, other in itertools.combinations(touches, 2):
            if one.task != other.task:
                yield (one, other) if one.event < other.event else (other, one)

    def is_race(self, first: Row, second: Row) -> bool:
        return not self.is_before(first.event, second.event)

    def is_possible(self, first: Row, second: Row) -> bool:
        """Whether luck at most puts them in order: also if nothing does."""
        if set(first.held) & set(second.held) or self.is_told_by_a_signal(first.event, second.event):
            return False
        return not self._is_handed_over(first, second)

    def _is_handed_over(self, first: Row, second: Row) -> bool:
        rows = [row for row in self.rows if row.thing == first.thing]
        makings = [row for row in rows if row.kind == MAKING]
        if not makings or makings[0].task != first.task or self.is_told_by_a_signal(makings[0].event, second.event):
            return False
        others = [row for row in rows if row.kind != MAKING and row.task != first.task]
        return all(self.is_before(first.event, other.event) for other in others)

    def found(self, possible: bool) -> Found:
        found: Found = defaultdict(int)
        for thing, touches in self.touches().items():
            is_one = self.is_possible if possible else self.is_race
            for first, second in self.pairs(touches):
                if second.kind not in CONFLICTING[first.kind] or first.loop and first.loop == second.loop:
                    continue
                if is_one(first, second) and not (possible and self.is_race(first, second)):
                    _count(found, first, second)
            for first, second in self._splits(touches, is_one):
                if not (possible and self.is_race(first, second) and first.loop != second.loop):
                    _count(found, first, second)
        return found

    def _splits(self, touches: list[Row], is_one: object) -> set[tuple[Row, Row]]:
        """Between tasks of one loop: all triples of a read, a change that goes back to it, and a change in between."""
        found = set()

        def apart(one: Row, other: Row) -> bool:
            return bool(is_one(*_by_event(one, other)))  # type: ignore[operator]

        for read, change, between in itertools.product(touches, repeat=3):
            if not (read.loop and read.task == change.task != between.task and read.loop == between.loop):
                continue
            if read.kind in CHANGING or change.kind not in CHANGING or between.kind not in CHANGING:
                continue
            own = [row for row in touches[: touches.index(change)] if row.task == change.task and row.kind not in CHANGING]
            if not own or own[-1].turn == change.turn or read not in own or read.turn != own[-1].turn:
                continue
            if self._is_kept_out(change, between, touches[: touches.index(change)]):
                continue
            # What comes behind the read in any case may come before the change: its task may have begun it.
            if between.kind in CONFLICTING[read.kind] and apart(change, between):
                if apart(read, between):
                    found.add(_by_event(read, between))
                if between.kind in CONFLICTING[change.kind]:
                    found.add(_by_event(change, between))
        return found


    @staticmethod
    def _is_kept_out(change: Row, between: Row, before: list[Row]) -> bool:
        """Whether the change goes with an earlier one of its task in any case, or other tasks look before they make it."""
        if not any(row.task == change.task and row.kind in CHANGING for row in before):
            return False
        word, _, last = change.undoes.rpartition(" ")
        if change.kind == WRITE:
            return (word == "guarded" or last == "flag") and between.function == change.function
        return last == "value" or last == "key" and change.kind == ADDITION


class RandomRun(Run):
    """A run in which tasks are started and joined, take locks, send messages and touch things."""

    kinds: tuple[str, ...] = (READ, READ, WRITE, WRITE, ADDITION, LENGTH, ITERATION)
    has_loops = has_makings = True
    releases_in_turn = False

    def __init__(self, seed: int, steps: int = 40) -> None:
        super().__init__()
        self.acts: list[tuple[str, str, str, Row | None]] = []
        """Who does what, in words, with a name or a touch."""
        self.chance = random.Random(seed)
        self._words = random.Random(-seed - 1)
        self._live = ["root"]
        self._ended: list[str] = []
        self._held: dict[str, list[str]] = defaultdict(list)
        self._released: dict[str, Event] = {}
        self._signals: list[tuple[Event, set[str]]] = []
        self._made: set[str] = set()
        self._turn = 0
        self._in_turn = ""
        self._is_looped = self.has_loops and self.chance.random() < 0.4
        self._has_own_lines = self.chance.random() < 0.5
        locking, signalling, touching = self.chance.choice(((2, 1, 3), (8, 0, 2), (8, 2, 2), (8, 4, 1), (1, 6, 2)))
        actions = [self._touch] * touching + [self._acquire, self._release] * locking + [self._send, self._receive] * signalling
        actions += [self._spawn, self._end, self._join]
        for _ in range(self.chance.randrange(3)):
            self._spawn("root")
        if self.chance.random() < 0.5:
            for _ in range(steps // 4):
                self._use_lock(self._next_task())
        else:
            for _ in range(steps):
                self.chance.choice(actions)(self._next_task())
        self.close()

    def _next_task(self) -> str:
        task = self.chance.choice(self._live)
        if self._in_turn != task or self.chance.random() < 0.5:
            self._turn += 1
        self._in_turn = task
        return task

    def _use_lock(self, task: str) -> None:
        """Touches something before or within a section, and seldom behind it: luck orders most of it."""
        for likely, action in ((0.4, self._touch), (0.9, self._acquire), (0.3, self._touch), (0.05, self._spawn), (1, self._release),
                               (0.05, self._touch), (0.1, self._send), (0.1, self._receive), (0.1, self._end), (0.1, self._join)):
            if task in self._live and self.chance.random() < likely:
                action(task)

    def _touch(self, task: str) -> None:
        event = self.add("local", task)
        for _ in range(self.chance.choice((1, 1, 2))):
            thing, line = self.chance.choice("xy"), self.chance.randrange(10, 16)
            line += 10 * list(self._last).index(task) if self._has_own_lines else 0
            is_making = self.has_makings and self.chance.random() < 0.15
            if is_making and thing in self._made:
                continue
            self._made.add(thing)
            kind = MAKING if is_making else self.chance.choice(self.kinds)
            loop = 1 if self._is_looped and task != "root" else 0
            words = ("", "", "value", "key", "flag", "guarded value", "guarded key") if loop and kind in CHANGING else ("",)
            row = Row(
                event.number, task, thing, kind, "a.py", line, kind, name=f"Thing.{thing}" if self._is_looped else "",
                function=f"work{line % 2}", undoes=self._words.choice(words), held=tuple(sorted(self._held[task])), loop=loop, turn=self._turn if loop else 0,
            )
            if row not in self.rows:
                self.rows.append(row)
                self.acts.append((task, "touch", "", row))
        if self.rows[-1].event != event.number:
            self.rows.append(Row(event.number, task, None, "local", None, 0, "touch"))

    def _acquire(self, task: str) -> None:
        free = [lock for lock in LOCKS if not any(lock in held for held in self._held.values())]
        if not free:
            return
        lock = self.chance.choice(free)
        self.acts.append((task, "acquire", lock, None))
        released = self._released.get(lock)
        if released is not None and released.task != task:
            self.add("recv", task, released.name, lock, released.number)
        self._held[task].append(lock)

    def _release(self, task: str) -> None:
        if self._held[task]:
            lock = self._held[task].pop(-1 if self.releases_in_turn else self.chance.randrange(len(self._held[task])))
            self.acts.append((task, "release", lock, None))
            self._released[lock] = self.add("send", task, f"m{len(self.events)}", lock)

    def _send(self, task: str) -> None:
        sent = self.add("send", task, f"m{len(self.events)}")
        self._signals.append((sent, {task}))
        self.acts.append((task, "send", sent.name, None))

    def _receive(self, task: str) -> None:
        new = [signal for signal in self._signals if task not in signal[1]]
        if new:
            sent, receivers = self.chance.choice(new)
            receivers.add(task)
            self.add("recv", task, sent.name, source=sent.number)
            self.acts.append((task, "recv", sent.name, None))

    def _spawn(self, task: str) -> None:
        if len(self._last) < MOST_TASKS:
            child = f"t{len(self._last)}"
            self.add("spawn", task, child)
            self.acts.append((task, "spawn", child, None))
            self._live.append(child)

    def _end(self, task: str) -> None:
        if task != "root" and not self._held[task] and self.chance.random() < 0.3:
            self.add("end", task)
            self.acts.append((task, "end", "", None))
            self._live.remove(task)
            self._ended.append(task)

    def _join(self, task: str) -> None:
        if self._ended:
            child = self._ended.pop(self.chance.randrange(len(self._ended)))
            self.add("join", task, child, source=self._last[child])
            self.acts.append((task, "join", child, None))


def _by_event(one: Row, other: Row) -> tuple[Row, Row]:
    return (one, other) if one.event < other.event else (other, one)


def _count(found: Found, first: Row, second: Row) -> None:
    one, other = sorted((first.place, second.place))
    found[first.name or first.thing or "", one, other] += 1


class Answers:
    """Answers a session's questions about a run."""

    def __init__(self, run: Run) -> None:
        self.run = run
        self.asked: list[str] = []

    def ask(self, lines: Iterable[str]) -> Iterator[str]:
        for line in lines:
            self.asked.append(line)
            yield self._answer(*line.split())

    def _answer(self, word: str, *numbers: str) -> str:
        run, (first, *rest) = self.run, map(int, numbers)
        if word == "order":
            return _order(run.full, first, rest[0])
        if word == "event":
            event = run.events[first - 1]
            follows = sorted({event.before, event.source} - {0})
            return " ".join(map(str, [200, event.kind, event.task, event.name, len(follows), *follows]))
        return "400 line"


def _order(reach: list[int], first: int, second: int) -> str:
    if reach[second] >> first & 1:
        return "200 before"
    return "200 after" if reach[first] >> second & 1 else "200 concurrent"


class AnswersWithoutLocks:
    """Stands for the second tenant."""

    run: Run

    def __init__(self, trace: object, locks: object) -> None:
        self.questions = 0

    def __enter__(self) -> AnswersWithoutLocks:
        return self

    def __exit__(self, *_: object) -> None:
        pass

    def ask(self, pairs: Iterable[tuple[int, int]]) -> None:
        self.questions += len(list(pairs))

    def is_concurrent(self, first: int, second: int) -> bool:
        return _order(self.run.without_locks, first, second) == "200 concurrent"
