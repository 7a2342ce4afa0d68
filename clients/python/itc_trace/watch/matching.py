"""Follows the patterns of a `match` statement with its subject, and notes what they look at.

No code of the program is run.
"""

from __future__ import annotations

import builtins
import types
from array import array
from builtins import any, dict, enumerate, id, issubclass, len, list, next, range, tuple, type, vars, zip
from collections import Counter, OrderedDict, defaultdict, deque
from collections.abc import Callable
from typing import Any, NamedTuple

from .decisions import class_with, ids_of, mro_of, value_of_field, vars_of
from .patterns import Anything, ByKey, Case, Either, InRow, Named, OfClass, Same, Unknown
from .places import Access

SEQUENCE, MAPPING, ITSELF = 1 << 5, 1 << 6, 1 << 22
"""Flags of types: what patterns of elements, of keys, and of the value itself match."""
NO, MAYBE, YES = range(3)
NOT_KNOWN = Unknown()
MISSING = Unknown()
MOST_COPIED = 256
SIMPLE = ids_of((str, int, bytes, float, bool, complex, type(None)))
ROWS: tuple[Any, ...] = (list, tuple, deque, array)
TABLES = ids_of((dict, defaultdict, OrderedDict, Counter))

_flags_of: Any = vars(type)["__flags__"].__get__


class Touching(NamedTuple):
    """How what is looked at is noted."""

    field: Callable[..., None]
    keyed: Callable[..., None]
    whole: Callable[..., None]


class Matching:
    """One `match` statement, in a module with these variables."""

    def __init__(self, touching: Touching, variables: dict[str, Any]) -> None:
        self._touching = touching
        self._variables = variables

    def follow(self, cases: list[Case], subject: Any) -> None:
        """Goes on to the case that surely matches."""
        for case in cases:
            if self._look(case.pattern, subject) == YES and not case.has_guard:
                return

    def _look(self, pattern: Any, value: Any) -> int:
        if type(pattern) is Anything:
            return YES
        if value is NOT_KNOWN:
            return MAYBE
        return _LOOKS[type(pattern)](self, pattern, value)

    def _same(self, pattern: Same, value: Any) -> int:
        if id(type(value)) in SIMPLE and id(type(pattern.value)) in SIMPLE:
            return YES if value == pattern.value else NO
        return MAYBE

    def _named(self, pattern: Named, value: Any) -> int:
        owner = self._found(pattern.names)
        if owner is not NOT_KNOWN:
            self._touching.field(owner, pattern.field)
        if id(type(value)) not in SIMPLE:
            self._touching.whole(value, pattern.whole)
        return MAYBE

    def _either(self, pattern: Either, value: Any) -> int:
        best = NO
        for one in pattern.patterns:
            best = max_of(best, self._look(one, value))
            if best == YES:
                break
        return best

    def _in_row(self, pattern: InRow, value: Any) -> int:
        kind = type(value)
        if not _flags_of(kind) & SEQUENCE:
            return NO
        self._touching.whole(value, pattern.length)
        base = next((one for one in ROWS if issubclass(kind, one)), None)
        count, wanted = -1 if base is None else base.__len__(value), len(pattern.before) + len(pattern.after)
        if base is not None and (count < wanted or count > wanted and not pattern.has_star):
            return NO
        self._touch_elements(pattern, value)
        places = [*enumerate(pattern.before), *enumerate(pattern.after, -len(pattern.after))]
        parts = list(value) if any([kind is one for one in ROWS]) and count <= MOST_COPIED else []
        if len(parts) < wanted or not places:
            return MAYBE if places else YES
        return min_of([self._look(one, parts[place]) for place, one in places])

    def _touch_elements(self, pattern: InRow, value: Any) -> None:
        """All are taken out, but for those that a star without a name leaves."""
        if pattern.has_star and not pattern.is_kept:
            for place in [*range(len(pattern.before)), *range(-len(pattern.after), 0)]:
                one = pattern.before[place] if place >= 0 else pattern.after[place]
                if type(one) is not Anything:
                    self._touching.keyed(value, place, pattern.elements)
        elif pattern.is_kept or any(type(one) is not Anything for one in pattern.before):
            self._touching.whole(value, pattern.whole)

    def _by_key(self, pattern: ByKey, value: Any) -> int:
        kind = type(value)
        if not _flags_of(kind) & MAPPING:
            return NO
        is_table = id(kind) in TABLES
        found: list[Any] = []
        for key, _ in pattern.pairs:
            is_simple = id(type(key)) in SIMPLE
            if key is not Unknown:
                self._touching.keyed(value, key, pattern.elements)
            found.append(dict.get(value, key, MISSING) if is_table and is_simple else NOT_KNOWN)
            if found[-1] is MISSING:
                return NO
        answers = [self._look(one, inside) for (_, one), inside in zip(pattern.pairs, found)]
        if pattern.rest:
            self._touching.whole(value, pattern.rest)
        return min_of(answers)

    def _of_class(self, pattern: OfClass, value: Any) -> int:
        kind = type(value)
        wanted = self._found(pattern.names)
        is_class = issubclass(type(wanted), type)
        is_one = is_class and any(one is wanted for one in mro_of(kind))
        if is_class and not is_one and class_with(type(wanted), "__instancecheck__") is type:
            return NO
        answers = [YES if is_one else MAYBE]
        names = _names_by_place(wanted if is_class else kind)
        if pattern.by_place and names is None:
            seen = value if is_one and _flags_of(wanted) & ITSELF else NOT_KNOWN
            answers += [self._look(one, seen) for one in pattern.by_place]
        for name, one in zip(names or (), pattern.by_place):
            self._touching.field(value, pattern.site, Access("named", "r", name, "", ""))
            answers.append(self._look(one, _inside(value, name)))
        for name, site, one in pattern.by_name:
            self._touching.field(value, site)
            answers.append(self._look(one, _inside(value, name)))
        return min_of(answers)

    def _found(self, names: tuple[str, ...] | None) -> Any:
        """What a dotted name of the module stands for, if that is plain to see."""
        if names is None:
            return NOT_KNOWN
        found = self._variables.get(names[0], vars(builtins).get(names[0], NOT_KNOWN))
        for name in names[1:]:
            found = _part(found, name)
        return found


_LOOKS: dict[type, Callable[[Matching, Any, Any], int]] = {
    Same: Matching._same, Named: Matching._named, Either: Matching._either, InRow: Matching._in_row,
    ByKey: Matching._by_key, OfClass: Matching._of_class,
}


def max_of(one: int, other: int) -> int:
    return one if one > other else other


def min_of(answers: list[int]) -> int:
    """The answer of several patterns, all of which have to match."""
    return NO if NO in answers else MAYBE if MAYBE in answers else YES


def _part(one: Any, name: str) -> Any:
    kind = type(one)
    if kind is types.ModuleType:
        return vars(one).get(name, NOT_KNOWN)
    owner = class_with(one, name) if issubclass(kind, type) else None
    return NOT_KNOWN if owner is None else vars_of(owner)[name]


def _names_by_place(kind: type) -> tuple[str, ...] | None:
    """The fields that a class matches by their places."""
    owner = class_with(kind, "__match_args__")
    names = None if owner is None else vars_of(owner)["__match_args__"]
    return tuple(one for one in names if type(one) is str) if type(names) is tuple else None


def _inside(value: Any, name: str) -> Any:
    found = value_of_field(value, name)
    return NOT_KNOWN if found is None else found

