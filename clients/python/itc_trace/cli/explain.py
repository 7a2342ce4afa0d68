"""Tells the story of one race, of a report of `--json` or of a trace that was kept."""

from __future__ import annotations

import codecs
import json
import os

from ..analyse.benign import Looking, read_patterns
from ..model.readable import readable
from ..record.faults import Fault
from ..report.as_json import NoReport, report_of_json
from ..report.explaining import NoFinding, benign_line, explained, finding_by, is_meant
from ..report.hints import missing_sources
from ..report.report import Report, report_of
from .kept_trace import KeptTrace
from .saying import UNWRITTEN, say, write

REPORT_BEGINS = b"{"
"""So is the first line of a report of --json, and of no export."""
KEY_OF_REPORT = "verdict"
"""A key of a report that something has put into one line."""


def explain(identity: str, kept: KeptTrace, is_strict: bool, benign: str | None) -> int:
    """Writes the story, and adds a line to the file of what is meant if one is named. Gives the status."""
    if os.path.isfile(identity) and not os.path.exists(kept.trace):
        raise Fault(f"{identity} is a file: the id comes first, as explain {kept.trace} {identity}")
    report = _report(kept, is_strict)
    try:
        finding = finding_by(identity, report, kept.trace)
    except NoFinding as fault:
        raise Fault(str(fault)) from fault
    if benign is not None:
        _add_line(benign, benign_line(finding), os.path.isfile(benign) and is_meant(finding, read_patterns(benign)))
    return 0 if write(f"{explained(finding, report)}\n") else UNWRITTEN


def _report(kept: KeptTrace, is_strict: bool) -> Report:
    if kept.port is None and _is_report(kept.trace):
        return _of_json(kept)
    found, picture = kept.races(Looking(is_strict))
    return report_of(found, picture=picture, beside=missing_sources(found))


def _is_report(file: str) -> bool:
    """Whether a file begins as a report. What cannot be read is told by whoever looks for an export there."""
    try:
        with open(file, "rb") as given:
            first = given.readline().removeprefix(codecs.BOM_UTF8).strip()
        return first == REPORT_BEGINS or KEY_OF_REPORT in json.loads(first)
    except (OSError, ValueError, TypeError, RecursionError):
        return False


def _of_json(kept: KeptTrace) -> Report:
    if kept.journals or kept.picture is not None:
        needless = f"--picture {kept.picture}" if kept.picture is not None else f"the journal {kept.journals[0]}"
        raise Fault(f"{needless} is for an export, and {kept.trace} is a report of --json: leave it out")
    try:
        with open(kept.trace, encoding="utf-8-sig") as given:
            return report_of_json(given.read())
    except (NoReport, UnicodeDecodeError) as fault:
        raise Fault(f"{kept.trace} is no report: {fault}: name the FILE of --json, or an export") from fault


def _add_line(file: str, line: str, is_there: bool) -> None:
    if is_there:
        say(readable(f"itc_trace: {file} has the race already: --benign {file} silences it"))
        return
    with open(file, "a+", encoding="utf-8") as written:
        written.seek(0)
        before = written.read()
        written.write(f"{'' if not before or before.endswith(chr(10)) else chr(10)}{line}\n")
    say(readable(f"itc_trace: {file} has a line more: --benign {file} silences the race"))
