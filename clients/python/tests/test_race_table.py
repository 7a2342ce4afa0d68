"""The table of races has a row for each, which says what the list for a person says."""

from __future__ import annotations

import csv
import unittest

from itc_trace.analyse.races import Races
from itc_trace.report.race_table import COLUMNS, race_table

from .support import TracedCase, in_turn
from .test_threads import write


class Tables(TracedCase):
    def test_each_race_is_a_row(self) -> None:
        found = self.races(lambda: in_turn(lambda: write('left, "right"'), lambda: write('left, "right"')))
        (row,) = csv.DictReader(race_table(found).splitlines())
        self.assertEqual((row["thing"], row["possible"], row["times"]), ('left, "right"', "no", "1"))
        self.assertEqual([row["place"], row["other place"]], [side.place for side in found.races[0].sides])
        self.assertEqual({row["task"], row["other task"]}, {"step0", "step1"})
        (row,) = csv.DictReader(race_table(Races(possible=found.races)).splitlines())
        self.assertEqual((row["kind"], row["other kind"]), ("write", "write"))

    def test_without_a_race_there_are_the_names_of_the_columns(self) -> None:
        self.assertEqual(race_table(Races()), ",".join(COLUMNS) + "\n")


if __name__ == "__main__":
    unittest.main()
