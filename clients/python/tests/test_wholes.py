"""What is watched as a whole, as the agent of Java watches arrays: what two tasks do with it in no order is named, and is no race."""

from __future__ import annotations

import json
import unittest
from dataclasses import replace

from itc_trace import Collector, Session, find_races
from itc_trace.analyse.races import Race, Races


class Wholes(unittest.TestCase):
    """Two tasks touch an array, and nobody knows which of its elements."""

    def races(self, first: str, second: str, between: tuple[str, ...] = (), more: tuple[tuple[str, str], ...] = ()) -> Races:
        """Those of two tasks with these kinds of touches. More of them are of further objects, by the same lines."""
        with Collector("trace") as collector, Session("trace", collector.port) as session:
            replies = list(session.ask(["spawn root a", "spawn root b", "local a", *between, "local b"]))
            lines = [
                json.dumps({
                    "event": int(reply.split()[1]), "task": task, "thing": f"int[] {number} of shop", "kind": kind,
                    "file": "Shop.java", "line": line, "label": f"{kind} int[]", "name": "int[]", "group": "int[]",
                })
                for number, kinds in enumerate(((first, second), *more), 1)
                for reply, task, kind, line in ((replies[2], "a", kinds[0], 3), (replies[-1], "b", kinds[1], 4))
            ]
            return find_races("trace", collector.port, [f"{line}\n" for line in (*lines, '{"end":true}')])

    def test_a_change_beside_a_touch_is_named_and_no_race(self) -> None:
        for first, second in (("inner write", "inner write"), ("inner read", "inner write"), ("inner write", "inner read")):
            with self.subTest(first=first, second=second):
                found = self.races(first, second)
                self.assertEqual((found.races, int(found.verdict())), ([], 0))
                (one,) = found.passed_over
                self.assertEqual((one.what, one.place), ("int[], in no order with Shop.java:4,", "Shop.java:3"))
                self.assertIn("not looked into: int[], in no order with Shop.java:4, at Shop.java:3", found.summary())

    def test_reads_and_what_is_in_order_are_not_named(self) -> None:
        self.assertEqual(self.races("inner read", "inner read").passed_over, [])
        self.assertEqual(self.races("inner write", "inner write", ("send a m", "recv b m")).passed_over, [])

    def test_a_change_that_is_known_beside_one_that_may_be_is_named(self) -> None:
        for first, second in (("write", "inner read"), ("read", "inner write"), ("inner write", "write")):
            with self.subTest(first=first, second=second):
                found = self.races(first, second)
                self.assertEqual((found.races, len(found.passed_over)), ([], 1))
        self.assertEqual(self.races("inner read", "read").passed_over, [])

    def test_a_race_is_told_beside_what_is_named_at_the_same_lines(self) -> None:
        for kinds, more in ((("write", "write"), ("inner write", "inner write")), (("inner write", "inner write"), ("write", "write"))):
            found = self.races(*kinds, more=(more,))
            self.assertEqual((len(found.races), len(found.passed_over)), (1, 1))

    def test_what_luck_alone_puts_in_order_is_named(self) -> None:
        found = Races(possible=[self.possible("inner write"), self.possible("write")])
        found.pass_over_inner()
        self.assertEqual([one.what for one in found.passed_over], ["int[], in order by luck alone with Shop.java:4,"])
        self.assertEqual(len(found.possible), 1)

    def possible(self, kind: str) -> Race:
        (race,) = self.races("write", "write").races
        first, second = race.example
        return replace(race, is_possible=True, example=(first._replace(kind=kind), second))

    def test_other_kinds_are_races(self) -> None:
        found = self.races("write", "read")
        self.assertEqual((len(found.races), found.passed_over), (1, []))


if __name__ == "__main__":
    unittest.main()
