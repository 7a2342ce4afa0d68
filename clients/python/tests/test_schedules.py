"""Programs by chance, each with a known schedule: what the tracer and the finder tell is what the schedule says."""

from __future__ import annotations

import os
import threading
import unittest
from collections.abc import Callable
from typing import Any

from itc_trace import Races, touch
from itc_trace.model.conflicts import READ, WRITE
from itc_trace.record.journal import Row

from .random_runs import RandomRun
from .support import WAIT, Step, TracedCase
from .test_finder import due, listed

SCHEDULES = int(os.environ.get("ITC_SCHEDULES", "120"))


class Schedule(RandomRun):
    """A run whose tasks are threads, in which locks are released in turn, and things are read and written."""

    kinds = (READ, WRITE)
    has_loops = has_makings = False
    releases_in_turn = True


class Baton:
    """Has threads act one after another. Nothing of it is traced."""

    def __init__(self, count: int) -> None:
        self._steps = [Step() for _ in range(count + 1)]
        self._steps[0].done()

    def act(self, number: int, action: Callable[[], object]) -> None:
        self._steps[number].wait()
        try:
            action()
        finally:
            self._steps[number + 1].done()


class Played:
    """Does what the schedule says, in real threads."""

    def __init__(self, run: Schedule) -> None:
        self.run = run
        self.locks: dict[str, Any] = {}
        self.events: dict[str, threading.Event] = {}
        self.threads: dict[str, threading.Thread] = {}
        self.baton = Baton(len(run.acts) + 1)

    def play(self) -> None:
        self.play_task("root")
        self.baton.act(len(self.run.acts), lambda: None)
        for thread in self.threads.values():
            thread.join(WAIT)

    def play_task(self, task: str) -> None:
        for number, (doer, word, name, row) in enumerate(self.run.acts):
            if doer == task:
                self.baton.act(number, lambda: getattr(self, f"do_{word}")(name, row))

    def do_touch(self, _: str, row: Row) -> None:
        text = "\n" * (row.line - 1) + f"touch({row.thing!r}, write={row.kind == WRITE})"
        exec(compile(text, "a.py", "exec"), {"touch": touch})

    def do_acquire(self, name: str, _: None) -> None:
        self.locks.setdefault(name, threading.Lock()).acquire()

    def do_release(self, name: str, _: None) -> None:
        self.locks[name].release()

    def do_send(self, name: str, _: None) -> None:
        self.events.setdefault(name, threading.Event()).set()

    def do_recv(self, name: str, _: None) -> None:
        self.events[name].wait()

    def do_spawn(self, name: str, _: None) -> None:
        thread = self.threads[name] = threading.Thread(target=self.play_task, args=(name,), name=name)
        thread.start()

    def do_end(self, *_: object) -> None:
        """The last act of a thread, which then ends."""

    def do_join(self, name: str, _: None) -> None:
        self.threads[name].join()


class Schedules(TracedCase):
    def test_each_schedule_has_the_races_that_are_due(self) -> None:
        kinds = {"race": 0, "possible": 0, "neither": 0}
        for seed in range(SCHEDULES):
            run = Schedule(seed)
            found: Races = self.races(Played(run).play)
            real, possible = due(run)
            self.assertEqual(set(listed(found.races)), set(real), f"races of schedule {seed}\n{found.text()}")
            self.assertEqual(set(listed(found.possible)), set(possible), f"possible races of schedule {seed}\n{found.text()}")
            kinds["race" if real else "possible" if possible else "neither"] += 1
        self.assertGreater(min(kinds.values()), SCHEDULES // 50, kinds)


if __name__ == "__main__":
    unittest.main()
