"""What the patterns of a `match` statement look at, in their order.

It is worked out for a subject when the statement is reached.
"""

from __future__ import annotations

import ast
from collections.abc import Callable
from typing import Any, NamedTuple

from ..model.conflicts import ITERATION, LENGTH
from .learned import Learned

Names = tuple[str, ...] | None
"""A dotted name of the module, in its parts. None, if it begins with a variable of a function."""


class Anything(NamedTuple):
    """A pattern that matches without a look."""


class Same(NamedTuple):
    """A value that is written out."""

    value: Any


class Named(NamedTuple):
    """A value that a dotted name has: its last part is a field of what the others give."""

    names: Names
    field: int
    whole: int


class Either(NamedTuple):
    patterns: tuple[Any, ...]


class InRow(NamedTuple):
    """Elements by their index. Those behind a star count from the end."""

    before: tuple[Any, ...]
    after: tuple[Any, ...]
    has_star: bool
    is_kept: bool
    length: int
    whole: int
    elements: int


class ByKey(NamedTuple):
    pairs: tuple[tuple[Any, Any], ...]
    rest: int
    elements: int


class OfClass(NamedTuple):
    """Fields of an object of a class. The first ones have their names from the class."""

    names: Names
    by_place: tuple[Any, ...]
    by_name: tuple[tuple[str, int, Any], ...]
    site: int


class Case(NamedTuple):
    pattern: Any
    has_guard: bool


ANYTHING = Anything()
LOOKING = (Named, InRow, ByKey)


def looks(pattern: Any) -> bool:
    """Whether the pattern looks at more than the type of its subject."""
    if isinstance(pattern, Either):
        return any(looks(one) for one in pattern.patterns)
    if isinstance(pattern, OfClass):
        return bool(pattern.by_place or pattern.by_name)
    return isinstance(pattern, LOOKING)


class Patterns:
    """Makes the patterns of a module's statements from its syntax tree."""

    def __init__(
        self, learned: Learned, site: Callable[..., int], text: Callable[[Any], str],
        is_of_module: Callable[[str], bool],
    ) -> None:
        self._learned = learned
        self._site = site
        self._text_of = text
        self._is_of_module = is_of_module
        self._text = ""

    def site_of(self, node: ast.Match) -> int | None:
        """The site of a statement. None, if nothing is looked at that tasks share."""
        self._text = self._text_of(node.subject)
        cases = [Case(self._made(case.pattern), case.guard is not None) for case in node.cases]
        if not any(looks(case.pattern) for case in cases):
            return None
        site = self._site(node.subject, "match", "")
        self._learned.cases[site] = cases
        return site

    def _made(self, node: Any) -> Any:
        make = getattr(self, "_make_" + type(node).__name__)
        return make(node)

    def _make_MatchValue(self, node: ast.MatchValue) -> Any:
        value = node.value
        if not isinstance(value, ast.Attribute):
            return Same(_constant(value))
        return Named(self._names(value.value), self._site(node, "field", "r", value.attr), self._whole(node, ITERATION))

    def _make_MatchSingleton(self, node: ast.MatchSingleton) -> Any:
        return Same(node.value)

    def _make_MatchAs(self, node: ast.MatchAs) -> Any:
        return ANYTHING if node.pattern is None else self._made(node.pattern)

    def _make_MatchOr(self, node: ast.MatchOr) -> Any:
        return Either(tuple(self._made(one) for one in node.patterns))

    def _make_MatchSequence(self, node: ast.MatchSequence) -> Any:
        stars = [place for place, one in enumerate(node.patterns) if isinstance(one, ast.MatchStar)]
        place = stars[0] if stars else len(node.patterns)
        star: Any = node.patterns[place] if stars else None
        before, after = node.patterns[:place], node.patterns[place + 1:]
        return InRow(
            tuple(map(self._made, before)), tuple(map(self._made, after)), bool(stars),
            star is not None and star.name is not None,
            self._whole(node, LENGTH), self._whole(node, ITERATION), self._site(node, "element", "r", "", self._text),
        )

    def _make_MatchMapping(self, node: ast.MatchMapping) -> Any:
        pairs = tuple((_constant(key), self._made(one)) for key, one in zip(node.keys, node.patterns))
        rest = self._whole(node, ITERATION) if node.rest else 0
        return ByKey(pairs, rest, self._site(node, "method", "", "get", self._text))

    def _make_MatchClass(self, node: ast.MatchClass) -> Any:
        by_name = tuple(
            (name, self._site(one, "field", "r", name), self._made(one))
            for name, one in zip(node.kwd_attrs, node.kwd_patterns)
        )
        return OfClass(
            self._names(node.cls), tuple(map(self._made, node.patterns)), by_name, self._site(node, "field", "r"),
        )

    def _whole(self, node: ast.pattern, kind: str) -> int:
        return self._site(node, "whole", kind, "", self._text)

    def _names(self, node: Any) -> Names:
        if isinstance(node, ast.Attribute):
            names = self._names(node.value)
            return None if names is None else (*names, node.attr)
        return (node.id,) if isinstance(node, ast.Name) and self._is_of_module(node.id) else None


class Unknown:
    """Stands for a key or a value that is not written out."""


def _constant(node: Any) -> Any:
    try:
        return ast.literal_eval(node)
    except (ValueError, TypeError):
        return Unknown


_KINDS: tuple[Any, ...] = (Anything, Same, Named, Either, InRow, ByKey, OfClass, Case)
_TUPLE, _UNKNOWN, _VALUE, _TABLE, _LIST = range(-5, 0)


def packed(one: Any) -> Any:
    """Patterns, and what has some, as tuples and values of the language alone."""
    if type(one) in _KINDS:
        return (_KINDS.index(type(one)), *map(packed, one))
    if type(one) is tuple:
        return (_TUPLE, *map(packed, one))
    if type(one) is list:
        return (_LIST, *map(packed, one))
    if type(one) is dict:
        return (_TABLE, *((key, packed(value)) for key, value in one.items()))
    return (_UNKNOWN,) if one is Unknown else (_VALUE, one)


def unpacked(row: Any) -> Any:
    """What was packed."""
    kind, *parts = row
    if kind == _VALUE:
        return parts[0]
    if kind == _UNKNOWN:
        return Unknown
    if kind == _TABLE:
        return {key: unpacked(value) for key, value in parts}
    made = map(unpacked, parts)
    return list(made) if kind == _LIST else tuple(made) if kind == _TUPLE else _KINDS[kind](*made)
