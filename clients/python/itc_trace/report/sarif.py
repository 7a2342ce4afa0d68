"""The report as SARIF 2.1.0, which code hosts and editors take in."""

from __future__ import annotations

import json
import os
import re
from pathlib import PurePath
from typing import Any

from ..model.finding import Finding, FoundSide
from ..model.readable import readable, uri_of
from ..model.verdict import Verdict
from .report import Report

SCHEMA = "https://json.schemastore.org/sarif-2.1.0.json"
ROOT = "SRCROOT"
FINGERPRINT = "itcTrace/v1"
RULES = {
    "race": "Two tasks touch one thing, a touch changes it, and nothing puts them in order.",
    "possible race": "Only luck kept two conflicting touches apart: they have no lock in common.",
    "deadlock": "Each of several tasks waits for a lock that the next one of them holds.",
    "possible deadlock": "Several tasks acquire the same locks in orders by which each may wait for the next one.",
}
"""What each kind says. One that is not here is a rule by its name alone."""


def sarif(report: Report) -> str:
    return json.dumps(as_object(report), indent=1, ensure_ascii=False) + "\n"


def as_object(report: Report) -> dict[str, Any]:
    kinds = list(dict.fromkeys([*RULES, *(finding.kind for finding in report.all_findings)]))
    results = [
        *(_result(one, report, kinds, None) for one in report.findings),
        *(_result(one, report, kinds, "inSource") for one in report.silenced),
        *(_result(one, report, kinds, "external") for one in report.known),
    ]
    return {
        "$schema": SCHEMA, "version": "2.1.0",
        "runs": [{
            "tool": {"driver": {"name": "itc-trace", "rules": [_rule(kind) for kind in kinds]}},
            "originalUriBaseIds": {ROOT: _base(report.folder)},
            "invocations": [_invocation(report)], "columnKind": "unicodeCodePoints", "results": results,
        }],
    }


def _base(folder: str) -> dict[str, str]:
    """The folder as a whole URI. If it is gone, whoever reads this has to know where it was."""
    return {"uri": f"file://{uri_of(os.path.join(folder, ''))}"} if folder else {}


def _rule(kind: str) -> dict[str, Any]:
    told = RULES.get(kind, kind)
    return {"id": _id(kind), "name": _id(kind), "shortDescription": {"text": told}, "defaultConfiguration": {
        "level": "warning" if kind.startswith("possible") else "error",
    }}


def _id(kind: str) -> str:
    return kind.replace(" ", "-")


def _invocation(report: Report) -> dict[str, Any]:
    """Whether the run was seen whole. What was not is told as the tool's own notification."""
    told = [{"level": "error", "message": {"text": _text(one.text)}} for one in report.unseen]
    is_whole = report.verdict is not Verdict.INCOMPLETE and not report.unseen
    return {"executionSuccessful": is_whole, **({"toolExecutionNotifications": told} if told else {})}


def _result(finding: Finding, report: Report, kinds: list[str], suppressed: str | None) -> dict[str, Any]:
    """The first side that writes is the place of the result, and the others are related to it."""
    sides = sorted(finding.sides, key=lambda side: not side.is_write)
    related = [_location(side, report, number) for number, side in enumerate(sides[1:], 1)]
    others = ", ".join(
        f"[{_link_text(_told(side))}]({number})" for number, side in enumerate(sides[1:], 1)
    )
    told = f"{_text(f'{finding.title}: {_told(sides[0])}')}, and {others}: {_text(finding.why)} (id {finding.identity})"
    return {
        "ruleId": _id(finding.kind), "ruleIndex": kinds.index(finding.kind),
        "level": "warning" if finding.is_possible else "error", "message": {"text": told},
        "locations": [_location(sides[0], report)], "relatedLocations": related,
        "partialFingerprints": {FINGERPRINT: finding.identity}, "occurrenceCount": max(1, finding.times),
        **({"suppressions": [{"kind": suppressed}]} if suppressed else {}),
        **({"properties": {"confirmed": True}} if finding.is_confirmed else {}),
    }


def _told(side: FoundSide) -> str:
    return f"{side.kind} by {side.task}"


def _text(text: str) -> str:
    """The text as it stands in a message. A key of the program as `](7)` leads to no place."""
    return _plain(text).replace("](", "] (")


def _link_text(text: str) -> str:
    """The text as it stands in the brackets of a link."""
    return re.sub(r"[\[\]\\]", r"\\\g<0>", _plain(text))


def _plain(text: str) -> str:
    """The text without what steers a terminal. A brace stands twice, as a single one begins what is put in later."""
    return readable(text).replace("{", "{{").replace("}", "}}")


def _location(side: FoundSide, report: Report, number: int | None = None) -> dict[str, Any]:
    told: dict[str, Any] = {"message": {"text": _text(_told(side))}}
    if number is not None:
        told["id"] = number
    if side.file:
        region: dict[str, Any] = {"startLine": side.line} if side.line > 0 else {}
        if region and side.source:
            region["snippet"] = {"text": side.source}
        physical: dict[str, Any] = {"artifactLocation": _artifact(side.found_at, report.folder)}
        told["physicalLocation"] = {**physical, **({"region": region} if region else {})}
    if side.function:
        told["logicalLocations"] = [{"fullyQualifiedName": side.function}]
    return told


def _artifact(file: str, folder: str) -> dict[str, str]:
    """The file by its name from the folder of the run, so that a repository knows it elsewhere."""
    whole = os.path.normpath(os.path.join(folder, file))
    if PurePath(whole).is_relative_to(folder):
        return {"uri": uri_of(PurePath(whole).relative_to(folder).as_posix()), "uriBaseId": ROOT}
    return {"uri": f"file://{uri_of(whole)}"}
