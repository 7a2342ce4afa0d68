"""Races of one cause are one entry, those of different causes are not, and none of them is lost from what is counted."""

from __future__ import annotations

import unittest
from dataclasses import replace

from itc_trace.model.finding import POSSIBLE_RACE, RACE, Finding, FoundSide, named
from itc_trace.model.verdict import Verdict
from itc_trace.report.grouping import entries
from itc_trace.report.report import Report
from itc_trace.report.text import Shown, text


def found(thing: str, writes: int, reads: int = 1, kind: str = RACE, made: str = "", events: tuple[int, int] = (1, 9), file: str = "a.py") -> Finding:
    sides = (
        FoundSide("write", file, writes, "f", "one", events[0], is_write=True),
        FoundSide("read", file, reads, "g", "two", events[1]),
    )
    return Finding(kind, thing, sides, "nothing orders them", made=made, is_possible=kind == POSSIBLE_RACE)


def grouped(*findings: Finding) -> list[list[Finding]]:
    return [one.findings for one in entries(findings)]


class Grouping(unittest.TestCase):
    def test_what_is_one_entry_and_what_is_not(self) -> None:
        for what, one, other, is_one in (
            ("two elements of one dict", found("d['a']", 1, made="a dict made at a.py:1"), found("d['b']", 2, made="a dict made at a.py:1"), True),
            ("an element and the shape", found("d['a']", 1, made="a dict made at a.py:1"), found("d", 2, made="a dict made at a.py:1"), True),
            ("dicts of one name made elsewhere", found("d['a']", 1, made="a dict made at a.py:1"), found("d['b']", 2, made="a dict made at a.py:7"), False),
            ("fields of one class", found("Shop.left", 1), found("Shop.sold", 2), True),
            ("fields of two classes", found("Shop.left", 1), found("Till.left", 2), False),
            ("one line that writes two things", found("Shop.left", 5), found("Till.left", 5), True),
            ("one line in two files", found("Shop.left", 5), found("Till.left", 5, file="b.py"), False),
            ("one line that only reads both", found("Shop.left", 5, 8), found("Till.left", 6, 8), False),
            ("a race and a possible one", found("Shop.left", 5), found("Shop.left", 5, kind=POSSIBLE_RACE), False),
            ("two variables", found("left", 1), found("sold", 2), False),
            ("places that are not known", found("left", 0, file=""), found("sold", 0, file=""), False),
        ):
            with self.subTest(what):
                self.assertEqual(grouped(one, other), [[one, other]] if is_one else [[one], [other]])

    def test_what_a_third_one_joins_is_one_entry(self) -> None:
        one, other, third = found("Shop.left", 5), found("Till.left", 6), found("Till.left", 5)
        self.assertEqual([len(group) for group in grouped(one, other, third)], [3])
        self.assertEqual([len(group) for group in grouped(one, other)], [1, 1])

    def test_the_shortest_pair_is_shown(self) -> None:
        long, short = found("x", 1, events=(1, 90)), found("x", 2, events=(50, 52))
        (entry,) = entries([long, short])
        self.assertIs(entry.shown, short)
        self.assertEqual(entry.findings, [short, long])


class Sides(unittest.TestCase):
    def test_java_has_class_and_method_before_the_line(self) -> None:
        side = FoundSide("write", "shop/b/Store.java", 5, "shop.b.Store.put", begin=5, text=("left--;",))
        self.assertEqual(side.told(5), "write at shop.b.Store.put (Store.java:5):  left--;")
        self.assertEqual(replace(side, function="").told(5), "write at shop/b/Store.java:5:  left--;")
        self.assertEqual(replace(side, file="store.rs", function="shop::put").told(5), "write at store.rs:5 in shop::put:  left--;")

    def test_two_files_of_one_name_are_two_places(self) -> None:
        one, other = found("x", 5, file="shop/a/Store.java"), found("y", 5, file="shop/b/Store.java")
        self.assertEqual(grouped(one, other), [[one], [other]])

    def test_the_numbers_of_functions_without_a_name_are_no_part_of_the_identity(self) -> None:
        for file, one, other, is_same in (
            ("a/Shop.java", "a.Shop.lambda$main$0", "a.Shop.lambda$main$12", True), ("Shop.java", "Shop$1.run", "Shop$2.run", True),
            ("Shop.java", "Shop1.run", "Shop2.run", False), ("main.go", "main.main.func1", "main.main.func2.1", True),
            ("main.go", "main.sell1", "main.sell2", False),
            ("shop.py", "Shop.func1", "Shop.func2", False), ("main.rs", "a::func1", "a::func2", False),
        ):
            with self.subTest(file=file, one=one):
                known = [FoundSide("write", file, 1, name).known_as for name in (one, other)]
                self.assertEqual(known[0] == known[1], is_same)


class Texts(unittest.TestCase):
    def report(self, *findings: Finding) -> Report:
        return Report(Verdict.RACES, f"{len(findings)} races in this run", list(findings))

    def test_further_pairs_are_counted_and_all_of_them_are_listed_if_asked_for(self) -> None:
        fields = [found(f"Settings.x{number}", 9, number) for number in range(21)]
        told = text(self.report(*fields))
        self.assertIn("\n    and 20 more pairs on Settings fields: --all\n", told)
        self.assertEqual(told.count("race on "), 1)
        everything = text(self.report(*fields), Shown(is_all=True))
        self.assertEqual(everything.count("race on "), 21)
        self.assertNotIn("--all", everything)
        self.assertTrue(told.endswith("\nitc_trace: 21 races in this run"))

    def test_one_more_pair_is_one(self) -> None:
        self.assertIn("\n    and 1 more pair on left: --all\n", text(self.report(found("left", 1), found("left", 2))))
        self.assertNotIn("more", text(self.report(found("left", 1), found("sold", 2))))

    def test_more_than_five_entries_have_a_summary_first(self) -> None:
        things = [found(f"t{number}", number + 1) for number in range(6)]
        self.assertTrue(text(self.report(*things[:5])).startswith("itc_trace: race on t0\n"))
        told = text(self.report(*things, found("t5", 60)))
        self.assertTrue(told.startswith("itc_trace: pairs by their things: t5 (2), t0 (1), t1 (1), t2 (1), t3 (1), t4 (1)\n"), told)

    def test_more_than_ten_things_are_counted_together_in_the_summary(self) -> None:
        things = [found(f"t{number}", number + 1) for number in range(13)]
        (summary, *_) = text(self.report(*things, found("t12", 60))).splitlines()
        self.assertTrue(summary.endswith(", t7 (1), t8 (1) and 3 more (3)"), summary)

    def test_a_list_fits_on_a_screen_and_leaves_no_cause_out_if_it_can(self) -> None:
        for count in (6, 8, 15, 19, 20, 500, 10_000):
            with self.subTest(count):
                things = [found(f"t{number}", number + 1, kind=POSSIBLE_RACE if number % 3 else RACE) for number in range(count)]
                report = self.report(*things, found("t1", 70_000, kind=POSSIBLE_RACE))
                lines = text(report).splitlines()
                self.assertLessEqual(len(lines), 24)
                shown = [line for line in lines if "race on t" in line]
                left = [int(line.split()[1]) for line in lines if line.startswith("    and ") and line.endswith(" more")]
                self.assertEqual(len(shown) + sum(left), count)
                self.assertEqual(bool(left), count > 16)
                self.assertEqual(lines[-1], f"itc_trace: {count + 1} races in this run")
                self.assertEqual(lines[1:5], ["itc_trace: race on t0", *(f"    {line}" for line in things[0].lines()[1:])])
                self.assertEqual(text(report, Shown(is_all=True)).count("race on t"), count + 1)

    def test_an_entry_of_one_line_has_its_places_its_count_and_its_identity(self) -> None:
        things = [found(f"t{number}", number + 1, file="/opt/a b/shop.py") for number in range(8)]
        told = text(self.report(*things, found("t7", 60)))
        self.assertIn(f"\n    race on t6: write at shop.py:7, read at shop.py:1; id {things[6].identity}\n", told)
        self.assertIn(f"\n    race on t7: write at shop.py:8, read at shop.py:1, and 1 more pair; id {things[7].identity}\n", told)
        self.assertEqual(told.count("itc_trace: the others in a line each: --all\n"), 1)

    def test_who_asks_for_so_many_entries_gets_them_whole(self) -> None:
        told = text(self.report(*(found(f"t{number}", number + 1) for number in range(30))), Shown(most=20))
        self.assertEqual(told.count("nothing orders them"), 20)
        self.assertIn("itc_trace: and 10 more, which --max 20 leaves out\n", told)

    def test_few_of_what_is_gone_from_the_baseline_are_named(self) -> None:
        gone = [one.known_as for one in (found(f"t{number}", number + 1) for number in range(5000))]
        told = named(gone)
        self.assertTrue(told.endswith(" and 4990 more"), told)
        self.assertEqual(told.count(" (t"), 10)


if __name__ == "__main__":
    unittest.main()
