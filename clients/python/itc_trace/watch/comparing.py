"""Which elements of a list a look for a value compares with it, and how far: `in`, `index`, `count` and `remove`.

No code of the program is run. So the look is followed no further than it surely goes.
"""

from __future__ import annotations

from builtins import any, dict, frozenset, id, issubclass, len, list, set, type, zip
from collections import Counter, OrderedDict, defaultdict, deque
from collections.abc import Iterator
from itertools import islice
from typing import Any, NamedTuple

from .decisions import is_made, is_watched_class, value_of_field
from .keys import SIMPLE

MOST_COMPARED = 256
_BY_LENGTH = frozenset((list, dict, defaultdict, OrderedDict, set, deque))
"""Types whose values are surely not equal if their lengths differ, which are compared first."""
EQUAL = "__eq__"


class Compared(NamedTuple):
    """An element that is compared with the value."""

    one: Any
    is_by_length: bool
    """Whether no more of a list is looked at than its length, which is another one."""


def compared_in(container: Any, value: Any, fields: list[str], is_counting: bool) -> Iterator[Compared]:
    """The elements that are compared with a value, as far as the look surely goes.

    The fields are those by which objects of its class are equal. Whoever counts compares all elements.
    """
    kind = type(value)
    base = class_of_elements(container)
    if base is None or not _is_compared_by_language(kind):
        return
    for one in list(islice(base.__iter__(container), MOST_COMPARED)):
        if type(one) is kind and one is not value:
            is_by_length = kind in _BY_LENGTH and len(one) != len(value)
            yield Compared(one, is_by_length)
            if not is_counting and not is_by_length and not _differ(one, value, fields):
                return
        elif one is value and not is_counting:
            return


def class_of_elements(container: Any) -> Any:
    """The class of the language whose elements it has, one after another."""
    kind = type(container)
    return list if issubclass(kind, list) else deque if issubclass(kind, deque) else None


def _is_compared_by_language(kind: type) -> bool:
    """Whether values of this type are compared by the language, or by code that `dataclass` made."""
    return kind in _BY_LENGTH or kind is Counter or is_watched_class(kind) and is_made(kind, EQUAL)


def _differ(one: Any, value: Any, fields: list[str]) -> bool:
    """Whether the two are surely not equal, by no more than their simple parts."""
    if type(one) is list:
        pairs = list(zip(one, value))
    else:
        pairs = [(value_of_field(one, name), value_of_field(value, name)) for name in fields]
    return any([_are_simple(*pair) and pair[0] != pair[1] for pair in pairs])


def _are_simple(one: Any, other: Any) -> bool:
    return id(type(one)) in SIMPLE and id(type(other)) in SIMPLE
