"""The journal tells of each event when it was, by the clock of its process."""

from __future__ import annotations

import json
import tempfile
import time
import unittest
from collections import defaultdict
from pathlib import Path
from typing import Any

from itc_trace.record.journal import Row, read_line

from .support import run_traced

PROGRAM = """
import queue, threading, time
lock, items, left = threading.Lock(), queue.Queue(), {"left": 1}

def sell():
    items.get()
    for _ in range(3):
        with lock:
            left["left"] -= 1
        time.sleep(0.01)

threads = [threading.Thread(target=sell) for _ in range(2)]
for thread in threads:
    thread.start()
time.sleep(0.05)
for thread in threads:
    items.put(1)
for thread in threads:
    thread.join()
"""
NO_TIME = '{"event":1,"task":"root","thing":null,"kind":"local","file":null,"line":0,"label":"touch"}\n'
NEARLY = 0.001


class Times(unittest.TestCase):
    begun: float
    ended: float
    lines: list[str]

    @classmethod
    def setUpClass(cls) -> None:
        with tempfile.TemporaryDirectory() as folder:
            program, journal = Path(folder, "shop.py"), Path(folder, "journal")
            program.write_text(PROGRAM)
            cls.begun = time.time()
            run_traced("--journal", str(journal), str(program))
            cls.ended = time.time()
            cls.lines = journal.read_text().splitlines(keepends=True)

    def rows(self) -> list[dict[str, Any]]:
        return [row for line in self.lines if "event" in (row := json.loads(line))]

    def test_each_event_has_one_time_which_is_of_the_run(self) -> None:
        times = defaultdict(list)
        for row in self.rows():
            times[row["event"]] += [row["time"]] if "time" in row else []
        self.assertEqual({len(told) for told in times.values()}, {1})
        for (told,) in times.values():
            self.assertTrue(self.begun - NEARLY <= told <= self.ended + NEARLY, (self.begun, told, self.ended))

    def test_a_task_is_never_earlier_than_before(self) -> None:
        lines = defaultdict(list)
        for row in sorted((row for row in self.rows() if "time" in row), key=lambda row: int(row["event"])):
            lines[row["task"]].append(row["time"])
        self.assertEqual(len(lines), 3)
        for times in lines.values():
            self.assertEqual(times, sorted(times))

    def test_a_message_is_received_after_it_is_sent(self) -> None:
        sent = {row["of"]: row["time"] for row in self.rows() if row["kind"] == "send"}
        received = [(row["of"], row["time"]) for row in self.rows() if row["kind"] == "recv"]
        self.assertGreater(len(received), 2)
        for message, told in received:
            self.assertGreaterEqual(told, sent[message])

    def test_the_time_is_of_the_touch_and_not_of_its_report(self) -> None:
        """The threads wait 0.05 s for their first item, and the root touches nothing before it puts one."""
        starts = [row["time"] for row in self.rows() if row["kind"] == "spawn"]
        touches = [row["time"] for row in self.rows() if row["task"] != "root" and row["thing"] is not None and "time" in row]
        self.assertGreater(min(touches) - max(starts), 0.045)

    def test_rows_are_read_with_their_times_and_without(self) -> None:
        read = [row for row in map(read_line, self.lines) if isinstance(row, Row)]
        self.assertEqual({row.time > 0 for row in read if row.thing is None}, {True})
        without = read_line(NO_TIME)
        assert isinstance(without, Row)
        self.assertEqual(without.time, 0.0)


if __name__ == "__main__":
    unittest.main()
