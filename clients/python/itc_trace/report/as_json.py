"""The report as JSON, and back. `docs/format.md` has the keys."""

from __future__ import annotations

import json
from collections.abc import Iterable
from typing import Any

from ..model.form import has_form
from ..model.finding import Finding, FoundSide, Known, KnownSide, Seen, Step, Story
from ..model.verdict import Cause, PassedOver, Unseen, Verdict
from .report import Report

VERSION = 1
SIDE_KEYS = ("kind", "file", "line", "function", "task", "event", "part", "is_in_loop", "is_write", "begin")


class NoReport(Exception):
    """A text that was given for a report is none."""


def json_text(report: Report) -> str:
    return json.dumps(as_object(report), indent=1, ensure_ascii=False) + "\n"


def as_object(report: Report) -> dict[str, Any]:
    return {
        "version": VERSION, "verdict": report.verdict.name, "summary": report.summary, "counts": report.counts,
        "folder": report.folder, "picture": report.picture,
        "findings": _all(report.findings), "silenced": _all(report.silenced), "known": _all(report.known),
        "gone": [
            {"id": one.identity, "thing": one.thing, "sides": [vars(side) for side in one.sides]} for one in report.gone
        ],
        "unseen": [{"cause": one.cause.value, "text": one.text} for one in report.unseen],
        "passed_over": [{"what": one.what, "place": one.place} for one in report.passed_over], "hints": report.hints,
    }


def _all(findings: Iterable[Finding]) -> list[dict[str, Any]]:
    return [finding_as_object(one) for one in findings]


def finding_as_object(finding: Finding) -> dict[str, Any]:
    seen = finding.seen
    return {
        "id": finding.identity, "kind": finding.kind, "thing": finding.thing, "made": finding.made,
        "possible": finding.is_possible, "confirmed": finding.is_confirmed, "why": finding.why, "times": finding.times,
        "sides": [
            {**_side_as_object(side), "before": _steps(_of(finding.story.before, number)),
             "after": _steps(_of(finding.story.after, number))}
            for number, side in enumerate(finding.sides)
        ],
        "orders": list(finding.story.orders),
        "runs": None if seen is None else {"in": seen.runs, "of": seen.of, "first": seen.first, "seed": seen.seed},
        "tests": list(finding.tests),
    }


def _of(sides: tuple[tuple[Step, ...], ...], number: int) -> tuple[Step, ...]:
    """The steps of a side. There are none if the story was not looked for."""
    return sides[number] if number < len(sides) else ()


def _steps(steps: Iterable[Step]) -> list[dict[str, Any]]:
    return [
        {"event": one.event, "part": one.part, "label": one.label, "place": one.place} for one in steps
    ]


def _side_as_object(side: FoundSide) -> dict[str, Any]:
    told = {key: getattr(side, key) for key in SIDE_KEYS}
    return {**told, "source": side.source, "text": list(side.text), "held": list(side.held), "path": side.path}


def report_of_json(text: str) -> Report:
    """The report that was written so."""
    try:
        report = report_of_object(json.loads(text))
    except (ValueError, TypeError, KeyError, AttributeError, RecursionError) as fault:
        raise NoReport("it is no report of --json") from fault
    if not has_form(report, Report):
        raise NoReport("it is no report of --json")
    return report


def report_of_object(told: dict[str, Any]) -> Report:
    if told["version"] != VERSION:
        raise NoReport(f"it is a report of version {told['version']}, and not of {VERSION}")
    found, silenced, known = (
        [finding_of_object(one) for one in _list(told[name])] for name in ("findings", "silenced", "known")
    )
    gone = [Known(one["thing"], tuple(KnownSide(**side) for side in one["sides"])) for one in told["gone"]]
    return Report(
        Verdict[told["verdict"]], told["summary"], found, silenced, known, gone,
        [Unseen(Cause(one["cause"]), one["text"]) for one in told["unseen"]],
        [PassedOver(**one) for one in told["passed_over"]], told["hints"], told["counts"], told["picture"],
        told["folder"],
    )


def _list(told: Any) -> list[Any]:
    if not isinstance(told, list):
        raise TypeError(f"{told!r} is no list")
    return told


def finding_of_object(told: dict[str, Any]) -> Finding:
    runs = told["runs"]
    seen = None if runs is None else Seen(runs["in"], runs["of"], runs["first"], runs["seed"])
    before, after = (
        tuple(tuple(Step(**step) for step in side[name]) for side in told["sides"]) for name in ("before", "after")
    )
    return Finding(
        told["kind"], told["thing"], tuple(map(_side_of_object, told["sides"])), told["why"], told["times"],
        told["made"], told["possible"], bool(told.get("confirmed")), seen, tuple(told["tests"]),
        Story(before, after, tuple(told["orders"])),
    )


def _side_of_object(told: dict[str, Any]) -> FoundSide:
    known = {key: told[key] for key in SIDE_KEYS}
    return FoundSide(**known, held=tuple(told["held"]), text=tuple(told["text"]), path=told.get("path", ""))
