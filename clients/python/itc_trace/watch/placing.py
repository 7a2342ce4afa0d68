"""Puts what a rewriting has found where hooks look for it,
and has the code with hooks know its places by their numbers."""

from __future__ import annotations

from types import CodeType
from typing import Any

from . import passed_over
from .decisions import forget_decisions
from .learned import STORED_ELSEWHERE, STORED_FIELDS, Found
from .places import CASES, LOOPS_OF, NAMES_OF_HANDED, OF_OTHERS, new_sites


def placed(code: CodeType, found: Found, file: str, module: str) -> CodeType:
    """The code with the numbers that its places have in this process."""
    marks = range(found.first, found.first + len(found.lines))
    shift = new_sites(file, module, found.lines, found.functions, found.accesses, found.undoing) - found.first
    for site, cases in found.cases.items():
        CASES[site + shift] = [_moved_part(case, marks, shift) for case in cases]
    for (line, name), text in found.handed.items():
        NAMES_OF_HANDED[file, line, name] = text
    for what, line in found.passed_over:
        passed_over.keep(what, file, line)
    LOOPS_OF[file] = [(site + shift if site != OF_OTHERS else site, first, last) for site, first, last in found.loops]
    if not found.fields <= STORED_FIELDS:
        STORED_FIELDS.update(found.fields)
        forget_decisions()
    STORED_ELSEWHERE.update(found.elsewhere)
    return _moved(code, marks.start, marks.stop, shift)


def _moved(code: CodeType, first: int, last: int, shift: int) -> CodeType:
    """The code, with each number of a place as it is in this process:
    those from the first one to before the last one are moved."""
    return code.replace(co_consts=tuple([
        (one + shift if first <= one < last else one) if type(one) is int else _moved(one, first, last, shift)
        if type(one) is CodeType else one
        for one in code.co_consts
    ]))


def _moved_part(one: Any, marks: range, shift: int) -> Any:
    """A part of a pattern: a number of a place, several parts, or what has no place."""
    if isinstance(one, tuple):
        parts = [_moved_part(part, marks, shift) for part in one]
        return tuple(parts) if type(one) is tuple else type(one)(*parts)
    return one + shift if type(one) is int and one in marks else one
