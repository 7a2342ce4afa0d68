"""Runs random programs of threads, locks and queues by the wrappers of a client, and compares the order that is reported with the due one.

A program is a list of steps, which the process does one after the other, each in a thread of its own. Which touch comes before which
is known from the list. The trace has to say the same of every two touches of different threads: no less order, and no more.

Usage: clients/random_orders.py FOLDER LANGUAGE.., with the built programs in FOLDER. ITC_RANDOM_RUNS says how many programs each
language runs, 4 where it is not set. The last line is 'random orders: N passed'.
"""

from __future__ import annotations

import json
import os
import random
import sys
import tempfile
from pathlib import Path
from typing import NamedTuple

from wrappers import INCOMPLETE, Check, Programs, Wrong, run_all, run_system

LOCKS, READ_LOCKS, QUEUES = 2, 2, 2


class Shape(NamedTuple):
    """How many steps a program has, how many tasks live at most, and how much likelier than others a step starts one."""

    steps: int
    most_tasks: int
    spawns: int


NARROW = Shape(300, 6, 1)


class Due:
    """A random list of steps, and what each touch comes after."""

    def __init__(self, seed: int, is_joined_once: bool, shape: Shape = NARROW) -> None:
        """A thread may be joined by several, but for a language that takes it away from the first one."""
        self._random = random.Random(seed)
        self._is_joined_once = is_joined_once
        self._shape = shape
        self.steps: list[str] = []
        self.before: list[int] = []
        """Of each touch the earlier ones that come before it, as bits."""
        self.tasks: list[str] = []
        """Of each touch whose it is."""
        self._known = {"main": 0}
        self._ended: dict[str, int] = {}
        self._held: dict[str, list[str]] = {"main": []}
        self._started = 0
        self._released = [0] * LOCKS
        self._by_writer, self._by_readers = [0] * READ_LOCKS, [0] * READ_LOCKS
        self._items: list[list[int]] = [[] for _ in range(QUEUES)]
        while len(self.steps) < shape.steps:
            self._step()
        for task in [task for task in self._known if task != "main"]:
            for one in list(self._held[task]):
                self._give_back(task, one)
            self._end(task)

    def _step(self) -> None:
        task = self._random.choice(list(self._known))
        choices = [self._touch, self._touch, self._lock, self._read_lock, self._unlock, self._put, self._take, self._spawn, self._join]
        self._random.choice(choices + [self._spawn] * (self._shape.spawns - 1))(task)

    def _do(self, task: str, operation: str, word: object) -> None:
        self.steps.append(f"{task} {operation} {word}")

    def _touch(self, task: str) -> None:
        number = len(self.before)
        self._do(task, "touch", f"t{number}")
        self.before.append(self._known[task])
        self.tasks.append(task)
        self._known[task] |= 1 << number

    def _holders(self, lock: str) -> int:
        return sum(held.count(lock) for held in self._held.values())

    def _lock(self, task: str) -> None:
        place = self._random.randrange(LOCKS)
        if not self._holders(f"lock {place}"):
            self._do(task, "lock", place)
            self._held[task].append(f"lock {place}")
            self._known[task] |= self._released[place]

    def _read_lock(self, task: str) -> None:
        place = self._random.randrange(READ_LOCKS)
        is_free = not self._holders(f"write {place}") and f"read {place}" not in self._held[task]
        if self._random.random() < 0.5 and is_free and not self._holders(f"read {place}"):
            self._do(task, "write_lock", place)
            self._held[task].append(f"write {place}")
            self._known[task] |= self._by_writer[place] | self._by_readers[place]
        elif is_free:
            self._do(task, "read_lock", place)
            self._held[task].append(f"read {place}")
            self._known[task] |= self._by_writer[place]

    def _unlock(self, task: str) -> None:
        if self._held[task]:
            self._give_back(task, self._random.choice(self._held[task]))

    def _give_back(self, task: str, held: str) -> None:
        self._held[task].remove(held)
        kind, word = held.split()
        place = int(word)
        if kind == "lock":
            self._do(task, "unlock", place)
            self._released[place] = self._known[task]
        elif kind == "write":
            self._do(task, "write_unlock", place)
            self._by_writer[place], self._by_readers[place] = self._known[task], 0
        else:
            self._do(task, "read_unlock", place)
            self._by_readers[place] |= self._known[task]

    def _put(self, task: str) -> None:
        place = self._random.randrange(QUEUES)
        self._do(task, "put", place)
        self._items[place].append(self._known[task])

    def _take(self, task: str) -> None:
        place = self._random.randrange(QUEUES)
        if self._items[place]:
            self._do(task, "take", place)
            self._known[task] |= self._items[place].pop(0)

    def _spawn(self, task: str) -> None:
        if len(self._known) < self._shape.most_tasks:
            self._started += 1
            child = f"c{self._started}"
            self._do(task, "spawn", child)
            self._known[child], self._held[child] = self._known[task], []

    def _join(self, task: str) -> None:
        """Has a thread end, or waits for one that has ended, which another one may have done already."""
        candidates = [child for child in self._known if child not in ("main", task) and not self._held[child]]
        if self._ended and self._random.random() < 0.7:
            child = self._random.choice(list(self._ended))
            self._do(task, "join", child)
            self._known[task] |= self._ended[child]
            if self._is_joined_once:
                del self._ended[child]
        elif candidates:
            self._end(self._random.choice(candidates))

    def _end(self, child: str) -> None:
        self._do(child, "end", "-")
        self._ended[child] = self._known.pop(child)
        del self._held[child]


def told(export: Path) -> tuple[dict[int, int], dict[str, int]]:
    """Of each event those before it, as bits, and the event of each thing that was touched."""
    before: dict[int, int] = {}
    for line in export.read_text().splitlines()[1:]:
        event = json.loads(line)
        before[event["event"]] = 0
        for one in event["preds"]:
            before[event["event"]] |= before[one] | 1 << one
    rows = map(json.loads, Path(f"{export}.journal").read_text().splitlines())
    return before, {row["thing"].split()[0]: row["event"] for row in rows if row.get("thing")}


def check(programs: Programs, seed: int) -> None:
    with tempfile.TemporaryDirectory() as folder:
        check_orders(programs, seed, NARROW, Path(folder))


def check_orders(programs: Programs, seed: int, shape: Shape, folder: Path, variables: dict[str, str] | None = None) -> None:
    """Runs the program of this seed, with these variables in its environment. The folder has the export of the run then."""
    due = Due(seed, programs.language == "rust", shape)
    (folder / "steps").write_text("".join(f"{step}\n" for step in due.steps))
    words = programs.words("steps", str(folder / "steps"))
    ran = run_system(folder, ["--export", str(folder / "export")], variables=variables, one=words)
    if ran.returncode == INCOMPLETE or "one | done" not in ran.stdout:
        raise Wrong(f"seed {seed}: {ran.stdout}{ran.stderr}")
    before, events = told(folder / "export")
    for second in range(len(due.before)):
        for first in range(second):
            if due.tasks[first] != due.tasks[second]:
                is_due = bool(due.before[second] >> first & 1)
                is_told = bool(before[events[f"t{second}"]] >> events[f"t{first}"] & 1)
                if is_told != is_due:
                    word = "is" if is_told else "is not"
                    raise Wrong(f"seed {seed}: t{first} {word} told to come before t{second}")


def main() -> int:
    runs = int(os.environ.get("ITC_RANDOM_RUNS", "4"))
    languages = [Programs(language, Path(sys.argv[1])) for language in sys.argv[2:]]
    return run_all("random orders", [Check([f"{one.language}: seed {seed}"], check, (one, seed)) for one in languages for seed in range(runs)])


if __name__ == "__main__":
    sys.exit(main())
