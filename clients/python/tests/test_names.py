"""Each task has a name of its own, however many there are, and what is kept for that does not grow with their number."""

from __future__ import annotations

import random
import unittest

from itc_trace.record import names
from itc_trace.record.names import MANY, MOST_KEPT, MOST_NAME, Names


class NamesOfTasks(unittest.TestCase):
    def test_a_hint_by_itself_is_the_first_name_and_a_numbered_one_begins_with_one(self) -> None:
        given = Names("")
        self.assertEqual([given.new("work#"), given.new("work#"), given.new("sell"), given.new("sell")],
                         ["work_1", "work_2", "sell", "sell_2"])

    def test_a_name_that_was_given_with_a_number_is_not_given_again(self) -> None:
        given = Names("")
        for first, second in (("work#", "work_1"), ("a_1", "a#"), ("b_2", "b#")):
            with self.subTest(first=first):
                self.assertEqual(len({given.new(first), given.new(second), given.new(second), given.new(first)}), 4)

    def test_no_two_tasks_have_one_name(self) -> None:
        chance = random.Random(7)
        hints = ["a#", "a", "a_1", "a_2#", "a_1_1", f"a_{MANY}", f"a_{MANY + 3}", "x" * 30, "x" * 17 + "y#", "0_1", "_", "a_01"]
        for _ in range(20):
            given = Names("p_")
            given._numbers["a"] = given._numbers["x" * 16] = MANY - 5
            told = [given.new(chance.choice(hints)) for _ in range(400)]
            self.assertEqual(len(set(told)), len(told))
            self.assertLessEqual(max(map(len, told)), MOST_NAME)

    def test_a_million_tasks_of_a_long_hint_have_names_that_the_collector_takes(self) -> None:
        given = Names("")
        given._numbers["process_request_th"] = MANY - 1
        self.assertEqual(given.new("process_request_thread#"), "process_request_t_100000")

    def test_what_is_kept_does_not_grow_with_the_number_of_names(self) -> None:
        given = Names("")
        for _ in range(1000):
            given.new("one#")
        self.assertEqual(len(given._numbers), 1)

    def test_hints_that_are_too_many_to_be_kept_have_names_of_their_own(self) -> None:
        given = Names("")
        told = {given.new(f"request-{number}-{number}") for number in range(MOST_KEPT + 500)}
        told |= {given.new("request-1-1"), given.new("more#"), given.new("more#"), given.new(f"more-{names.MANY + 1}")}
        self.assertEqual(len(told), MOST_KEPT + 504)
        self.assertLessEqual(len(given._numbers), MOST_KEPT)


if __name__ == "__main__":
    unittest.main()
