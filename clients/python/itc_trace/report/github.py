"""The report as commands of a workflow, by which GitHub shows each finding beside its line."""

from __future__ import annotations

import os
import re
from collections.abc import Iterator
from pathlib import PurePath

from ..model.finding import Finding, FoundSide
from ..model.readable import readable
from ..model.verdict import Verdict, reasons
from .report import Report


REPOSITORY = "GITHUB_WORKSPACE"
"""The variable of the environment by which a workflow names the folder of its repository."""
CONTROLS = re.compile("[\0-\x08\x0b\x0c\x0e-\x1f\x7f-\x9f]")
"""All but a tab and what ends a line, which a command has a word for."""


def github(report: Report) -> str:
    """A line for each finding that counts or is possible, and one if not all was seen."""
    return "".join(f"{line}\n" for line in _lines(report, os.environ.get(REPOSITORY) or report.folder))


def _lines(report: Report, root: str) -> Iterator[str]:
    for finding in report.findings:
        yield _annotation(finding, report.folder, root)
    if report.unseen:
        level = "error" if report.verdict is Verdict.INCOMPLETE else "warning"
        yield f"::{level} title=itc-trace::{_data(readable(f'incomplete: {reasons(report.unseen)}'))}"


def _annotation(finding: Finding, folder: str, root: str) -> str:
    level = "warning" if finding.is_possible else "error"
    side = next((one for one in _best_first(finding) if one.file), None)
    place = "" if side is None else f"file={_property(_named(side.found_at, folder, root))},line={max(1, side.line)},"
    told = "\n".join([finding.title, *finding.told_sides, finding.told_order])
    return f"::{level} {place}title={_property(f'itc-trace {finding.identity}')}::{_data(told)}"


def _best_first(finding: Finding) -> list[FoundSide]:
    """The sides that write come first."""
    return sorted(finding.sides, key=lambda side: not side.is_write)


def _named(file: str, folder: str, root: str) -> str:
    """The file by its name within the repository, and by its whole name if it is not of it."""
    whole = os.path.normpath(os.path.join(folder, file))
    return os.path.relpath(whole, root) if root and PurePath(whole).is_relative_to(root) else whole


def _data(text: str) -> str:
    return text.replace("%", "%25").replace("\r", "%0D").replace("\n", "%0A")


def _property(text: str) -> str:
    """What steers a terminal is told as Python writes it, as no name of a repository has it."""
    shown = CONTROLS.sub(lambda found: readable(found[0]), text)
    return _data(shown).replace(":", "%3A").replace(",", "%2C")
