"""The story of one finding: both sides with their source, what each task did around, and what would have helped."""

from __future__ import annotations

import os
from collections.abc import Iterator

from ..analyse.benign import MOST_PLACES, Pattern
from ..model.finding import Finding, FoundSide, Step
from ..model.readable import UNSEEN, readable
from ..model.verdict import reasons
from .report import Report
from .text import link

LEAST_DIGITS = 4
MOST_LISTED = 10
"""So many findings are named where one was not found."""
ANY = "*"


class NoFinding(Exception):
    """There is no finding of such an identity, or several."""


def finding_by(identity: str, report: Report, where: str) -> Finding:
    """The finding of an identity, which may be cut short."""
    known = report.ids
    found = {name: one for name, one in known.items() if name.startswith(identity.lower())}
    if len(identity) >= LEAST_DIGITS and len(found) == 1:
        return next(iter(found.values()))
    if not known:
        seen = f" in what was seen: {reasons(report.unseen)}" if report.unseen else ""
        raise NoFinding(f"{where} has no race{seen}")
    if len(identity) < LEAST_DIGITS:
        raise NoFinding(f"{identity or 'nothing'} is too short for an id: {where} has {_listed(found or known)}")
    if found:
        raise NoFinding(f"{len(found)} races of {where} have ids that begin with {identity}: {_listed(found)}")
    raise NoFinding(f"{where} has no race {identity}: its ids are {_listed(known)}")


def _listed(findings: dict[str, Finding]) -> str:
    """Findings with their identities, as far as a person reads them."""
    told = [f"{name} ({one.thing})" for name, one in findings.items()]
    more = f" and {len(told) - MOST_LISTED} more" if len(told) > MOST_LISTED else ""
    return f"{', '.join(told[:MOST_LISTED])}{more}"


def explained(finding: Finding, report: Report) -> str:
    return "\n".join(map(readable, _lines(finding, report)))


def _lines(finding: Finding, report: Report) -> Iterator[str]:
    yield f"{finding.title}, id {finding.identity}"
    yield f"    {finding.told_order.partition('; id ')[0]}"
    if finding.seen is not None:
        yield f"    {finding.seen}"
    for state, findings in (("silenced", report.silenced), ("in the baseline", report.known)):
        if finding in findings:
            yield f"    it is {state}"
    for test in finding.tests:
        yield f"    met by {test}"
    for other in report.all_findings:
        if other is not finding and other.identity == finding.identity:
            places = " and ".join(side.told_place for side in other.sides)
            yield f"    the same sources race at {places}: it has this id, too"
    story = finding.story
    for number, side in enumerate(finding.sides):
        yield ""
        yield from _side(
            side, story.before[number] if number < len(story.before) else (),
            story.after[number] if number < len(story.after) else (),
        )
    if story.orders:
        yield ""
        yield "What would have put them in order, or kept them apart:"
        yield from (f"  - {one}" for one in story.orders)
    if report.picture is not None:
        yield ""
        yield f"In the picture: {link(finding, os.path.join(report.folder, report.picture))}"


def _side(side: FoundSide, before: tuple[Step, ...], after: tuple[Step, ...]) -> Iterator[str]:
    locks = ", ".join(lock.partition(" ")[2] or lock for lock in side.held)
    yield f"{side.task}: {side.kind} at {side.told_place}, holding {locks or 'no lock'}"
    yield from (f"    before  {one}" for one in _steps(before, side.part))
    yield from _source(side)
    yield from (f"    after   {one}" for one in _steps(after, side.part))


def _source(side: FoundSide) -> Iterator[str]:
    """The lines around the place, of which that one is marked."""
    width = len(str(side.begin + len(side.text)))
    for number, line in enumerate(side.text, side.begin):
        yield f"    {'>' if number == side.line else ' '} {number:{width}}  {line}".rstrip()
    if not side.text:
        yield "    > its source is not here"


def _steps(steps: tuple[Step, ...], part: int) -> Iterator[str]:
    """The part is told of those that are in another one than the touch."""
    for step in steps:
        of_part = "" if step.part == part else f" of part {step.part}"
        yield f"event {step.event}{of_part}: {step.label}{f' at {step.place}' if step.place else ''}"


def benign_line(finding: Finding) -> str:
    """The line of a file of --benign by which this finding is meant, and no other that is at other places.

    A line has two places at most. Those of a deadlock are where its first two tasks want a lock.
    """
    sides = finding.sides[1::2] if finding.is_deadlock else finding.sides
    places = [side.place if side.file else ANY for side in sides[:MOST_PLACES]]
    words = [_word(one) for one in (finding.thing, *places)]
    return f"{' '.join(words)}  # {finding.identity}"


def _word(text: str) -> str:
    """A pattern of this text that has no space, and does not begin a comment."""
    word = UNSEEN.sub(ANY, ANY.join(text.split())) or ANY
    return f"{ANY}{word[1:]}" if word.startswith("#") else word


def is_meant(finding: Finding, patterns: list[Pattern]) -> bool:
    return any(pattern.fits(finding) for pattern in patterns)
