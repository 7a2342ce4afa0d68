"""The races as a table in CSV, for a spreadsheet or another program."""

from __future__ import annotations

import csv
import io
from collections.abc import Iterator

from ..analyse.races import Races
from ..model.finding import Finding

COLUMNS = (
    "thing", "possible", "why", "times", "kind", "place", "task", "other kind", "other place", "other task", "id",
)


def race_table(races: Races) -> str:
    """The names of the columns, and a row for each race. Those that are possible stand behind the others."""
    written = io.StringIO()
    table = csv.writer(written, lineterminator="\n")
    table.writerow(COLUMNS)
    table.writerows(_row(race.finding(races.sources)) for race in [*races.races, *races.possible])
    return written.getvalue()


def _row(finding: Finding) -> Iterator[object]:
    yield from (finding.thing, "yes" if finding.is_possible else "no", finding.why, finding.times)
    for side in finding.sides:
        yield from (side.kind, side.place, side.task)
    yield finding.identity
