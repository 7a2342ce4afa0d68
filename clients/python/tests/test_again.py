"""What runs the programs of the tests several times tells an answer that is not due, and one that changes."""

from __future__ import annotations

import unittest

from .again import TABLES, WRONG, Answers, Once, compared, once


def told(*answers: Answers) -> list[str]:
    return list(compared("table", [Once(one, "") for one in answers]))


class Compared(unittest.TestCase):
    def test_programs_with_the_same_answer_each_time_are_not_told(self) -> None:
        self.assertEqual(told({"one": "race", "two": ""}, {"two": "", "one": "race"}), [])

    def test_an_answer_that_is_not_always_the_same_is_told_with_how_often(self) -> None:
        self.assertEqual(
            told({"one": "race"}, {"one": "possible"}, {"one": "race"}),
            ["differs: table: one: 2 of 3: race; 1 of 3: possible"],
        )
        self.assertEqual(told({"one": "race"}, {}), ["differs: table: one: 1 of 2: race; 1 of 2: nothing"])

    def test_an_answer_that_is_not_due_is_told_also_if_it_is_always_the_same(self) -> None:
        self.assertEqual(told({"one": WRONG}, {"one": WRONG}), [f"wrong: table: one: 2 of 2: {WRONG}"])

    def test_a_run_that_has_failed_is_told_once(self) -> None:
        lines = list(compared("table", [Once({"one": "race"}, ""), Once({}, "status -11")]))
        self.assertEqual(lines, ["wrong: table: 1 of 2 has failed: status -11"])


class Run(unittest.TestCase):
    def test_a_table_is_run_and_each_of_its_programs_has_an_answer(self) -> None:
        ran = once("by_luck", "")
        self.assertEqual(ran.said, "")
        self.assertGreater(len(ran.answers), 80)
        self.assertEqual([one for one in ran.answers.values() if one.startswith(WRONG)], [])
        self.assertGreater(sum('"race": [' in one for one in ran.answers.values()), 30)

    def test_what_cannot_be_run_is_wrong(self) -> None:
        self.assertNotIn("test_of_nothing", TABLES)
        self.assertEqual(len(told(once("test_of_nothing", "").answers)), 1)


if __name__ == "__main__":
    unittest.main()
