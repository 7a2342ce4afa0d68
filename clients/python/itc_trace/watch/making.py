"""Gives modules their code with hooks: as another run has kept it, if that would be written now, else anew."""

from __future__ import annotations

import builtins
import gc
import warnings
from collections.abc import Callable, Iterator
from contextlib import contextmanager
from types import CodeType
from typing import Any

from .depth import at_any_depth
from .held_lines import has_lines
from .kept import Kept
from .learned import STORED_ELSEWHERE, STORED_FIELDS, Asked, Found, Learned
from .patterns import packed, unpacked
from .placing import placed
from .rewrite import ON, written

MODULE = "module"
Row = tuple[Any, ...]


def kept_code(source: bytes, file: str, module: str, is_watched: Callable[[str], bool]) -> CodeType | None:
    """What another run has kept of the module, with its places known from here on. None if that does not fit."""
    if has_lines(file):
        return None
    with _without_collector():
        made = Kept(file, MODULE, source, module).found(lambda made: _is_answered(made[0], made[1], is_watched))
        return None if made is None else placed(made[2], _found_of(made[1]), file, module)


def new_code(source: bytes, file: str, module: str, is_watched: Callable[[str], bool]) -> CodeType:
    """The code with hooks, which is kept for other runs. Its places are known from here on."""
    learned = Learned(is_watched)
    with warnings.catch_warnings(), _without_collector():
        warnings.simplefilter("ignore")
        code = at_any_depth(lambda: written(source, file, module, learned))
    found = learned.found()
    if not has_lines(file):
        Kept(file, MODULE, source, module).keep((_row_of_asked(learned.asked), _row_of_found(found), code))
    return placed(code, found, file, module)


@contextmanager
def _without_collector() -> Iterator[None]:
    """A tree has no cycles, and most of the time would go into looking for some.

    The program's other threads have the collector as it is.
    """
    is_alone = not getattr(builtins, ON, False)
    if not is_alone or not gc.isenabled():
        yield
        return
    gc.disable()
    try:
        yield
    finally:
        gc.enable()


def _is_answered(asked: Row, found: Row, is_watched: Callable[[str], bool]) -> bool:
    """Whether each question that was asked then has the same answer now."""
    imports, names, no_names, fields, no_fields, elsewhere, not_elsewhere = asked
    there = vars(builtins).keys()
    own_fields, own_elsewhere = _found_of(found)[-2:]
    return (
        names <= there and no_names.isdisjoint(there) and fields - own_fields <= STORED_FIELDS
        and no_fields.isdisjoint(STORED_FIELDS)
        and elsewhere - own_elsewhere <= STORED_ELSEWHERE and not_elsewhere.isdisjoint(STORED_ELSEWHERE)
        and all(is_watched(name) == answer for name, answer in imports.items())
    )


def _row_of_asked(asked: Asked) -> Row:
    answers = [
        frozenset(name for name, answer in answered.items() if answer == wanted)
        for answered in (asked.builtins, asked.fields, asked.elsewhere) for wanted in (True, False)
    ]
    return (asked.imports, *answers)


def _row_of_found(found: Found) -> Row:
    return tuple(found._replace(cases=packed(found.cases)))


def _found_of(row: Row) -> Found:
    found = Found(*row)
    return found._replace(cases=unpacked(found.cases)) if found.cases else found
