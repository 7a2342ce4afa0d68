"""The findings as lines of JSON, with a few lines of source around both touches, for the page of a picture."""

from __future__ import annotations

import json
from typing import Any

from ..model.finding import Finding, FoundSide
from ..model.sources import MOST_LETTERS
from .report import Report


def race_rows(report: Report) -> str:
    """A line that says how many races there are, how many are left out and what was not seen, and then one for each,
    those that are possible behind the others."""
    findings = [finding for finding in report.findings if finding.is_of_this_run]
    possible = sum(finding.is_possible for finding in findings)
    left_out = {"known": len(report.known), "silenced": len(report.silenced)}
    head = {
        "races": len(findings) - possible, "possible": possible, "unseen": [one.text for one in report.unseen],
        **{what: count for what, count in left_out.items() if count},
    }
    rows = [head, *map(_told, findings)]
    return "".join(f"{json.dumps(row, separators=(',', ':'))}\n" for row in rows)


def _told(finding: Finding) -> dict[str, Any]:
    return {
        "thing": finding.thing, "made": finding.made, "possible": finding.is_possible, "why": finding.why,
        "times": finding.times, "sides": [_side(side) for side in finding.sides],
        **({"kind": finding.kind} if finding.is_deadlock else {}),
        **({"confirmed": True} if finding.is_confirmed else {}),
    }


def _side(side: FoundSide) -> dict[str, Any]:
    return {
        "event": side.event, "task": side.task, "kind": side.kind, "file": side.file or "?", "line": side.line,
        "function": side.function, "begin": side.begin, "text": [line[:MOST_LETTERS] for line in side.text],
        **({"part": side.part} if side.part > 1 else {}),
    }
