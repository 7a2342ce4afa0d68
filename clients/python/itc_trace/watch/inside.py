"""The containers inside of those that the library has written in Python, as `UserDict`:
what is done to one is done to the other."""

from __future__ import annotations

import csv
import io
import weakref
from builtins import (
    BaseException, any, bool, bytes, dict, enumerate, float, frozenset, getattr, id, int, issubclass, len, list, min,
    next, range, set, str, tuple, type,
)
from collections import deque
from collections.abc import Iterator
from dataclasses import _FIELD, Field  # type: ignore[attr-defined]
from functools import partial
from gc import get_referents
from itertools import tee
from sys import getrefcount
from types import BuiltinMethodType, MemberDescriptorType, SimpleNamespace
from typing import Any, NamedTuple

from .decisions import (
    COMPOSED, OF_VALUES, ROWS_OF_ITERATORS, STEPPED, VIEWS, class_with, family_of, field_inside, fields_of, ids_of,
    has_watched_method, is_made, is_watched_class, module_of, mro_of, name_of, value_of_field, vars_of,
)
from ..model.kinds import (
    COMPARED, CONTENT, DECLARED, DICT, EXITS, HASHED, MAPS, OF_ELEMENTS, ORDERED, RANKED, REFERRED, SHOWN, STATE,
    WRITER, WRITTEN, WRITTEN_TO,
)
from .learned import STORED_FIELDS

READING = frozenset(("", "r", "c", "get", "keys", "values", "items", "copy", "__getitem__", "__contains__"))
"""Ways to touch, and methods, that look at each of several containers. Others change the first one."""
MOST_INSIDE = 16


def inside_of(one: Any, way: str = "") -> Iterator[Any]:
    """The containers that have what such an object has."""
    name = field_inside(type(one))
    if not name or name == EXITS and not way:
        return
    if name == REFERRED:
        yield from (part for part in get_referents(one) if family_of(type(part)) is not None)
        return
    if name == WRITTEN_TO:
        files = [part.__self__ for part in get_referents(one) if type(part) is BuiltinMethodType]
        yield from (file for file in files if family_of(type(file)) is not None)
        return
    found = fields_of(one)
    value = found[name] if name in found else None
    for part in _parts_of(value, way) if name == MAPS else [value]:
        if family_of(type(part)) is not None:
            yield part
        elif name in (MAPS, WRITER):
            yield from inside_of(part, way)


def _parts_of(maps: Any, way: str) -> list[Any]:
    if type(maps) is not list:
        return []
    most = MOST_INSIDE if way in READING else 1
    return [maps[number] for number in range(min(len(maps), most))]


# What is behind an iterator

OWN_STEPS: set[int] = set()
"""Types of this package whose steps are looks at a container: what goes on with them is noted already."""
_SHARING = id(type(next(one for one in get_referents(tee(())[0]) if type(one) is not type)))
"""The type of what the iterators of one `tee` have in common."""


class Behind(NamedTuple):
    """What a step of an iterator goes on with: iterators that others reach, too, and containers,
    each with the type of its iterator."""

    iterators: list[Any]
    containers: list[tuple[Any, type]]


def behind(one: Any) -> Behind:
    """What an iterator goes on with. Nothing of the program's own is looked into."""
    found, todo = Behind([], []), deque([(one, False)])
    for _ in range(MOST_INSIDE):
        if not todo:
            break
        iterator, is_reached = todo.popleft()
        kind = type(iterator)
        if id(kind) in VIEWS:
            found.containers.extend((part, kind) for part in inside_of(iterator))
        for part in _iterators_in(iterator):
            is_others = is_reached or getrefcount(part) > REFERENCES_OF_INNER
            if is_others and id(type(part)) != _SHARING:
                found.iterators.append(part)
            todo.append((part, is_others))
    return found


def _iterators_in(one: Any) -> list[Any]:
    if id(type(one)) not in COMPOSED and id(type(one)) != _SHARING:
        return []
    parts = [part for part in get_referents(one) if part is not type(one)]
    if id(type(one)) in ROWS_OF_ITERATORS:
        parts = [part for row in parts[:1] if type(row) is tuple for part in row]
    kinds = {id(type(part)) for part in parts}
    return [] if kinds & OWN_STEPS else [
        part for part in parts if id(type(part)) in STEPPED or id(type(part)) == _SHARING
    ]


def _references_of_inner() -> int:
    outer: enumerate[Any] = enumerate(())
    for part in _iterators_in(outer):
        return getrefcount(part)
    return 0


REFERENCES_OF_INNER = _references_of_inner()
"""How many references there are of an iterator that another one alone has."""


# What is inside of a container, as deep as it goes

MOST_NESTED = 256
_ROWS: tuple[Any, ...] = (list, tuple, set, frozenset, deque)
_SINGLE = ids_of((str, int, float, bool, bytes, type(None)))
_STATE_METHODS = ("__copy__", "__deepcopy__", "__reduce__", "__reduce_ex__", "__getstate__")
_TEXT_METHODS = ("__str__", "__format__")


_OWN_METHODS = {
    SHOWN: ("__repr__",), WRITTEN: ("__repr__",), COMPARED: ("__eq__",), ORDERED: ("__eq__", "__lt__"),
    HASHED: ("__hash__",), RANKED: ("__lt__", "__gt__"),
    STATE: _STATE_METHODS,
}
"""The methods by which what is inside of something else is looked at.

If a class of the program has one, it has hooks itself.
"""
_BY_ADDRESS = ids_of(
    (weakref.WeakValueDictionary, weakref.WeakKeyDictionary, csv.DictWriter, type(csv.writer(io.StringIO())))
)
"""Types whose text has nothing of what is inside."""


def nested_in(one: Any, name: str, depth: str) -> Iterator[tuple[Any, str]]:
    """What something has inside, each once and with a name, and no more than so many.

    For a look at elements it is those alone.
    """
    seen, todo = {id(one)}, deque([(one, name, False)])
    while todo and len(seen) < MOST_NESTED:
        for part, called in _parts_inside(*todo.popleft(), depth):
            if id(part) not in seen and id(type(part)) not in _SINGLE:
                seen.add(id(part))
                yield part, called
                if depth not in OF_ELEMENTS:
                    todo.append((part, called, True))


def _parts_inside(one: Any, name: str, is_inside: bool, depth: str) -> Iterator[tuple[Any, str]]:
    kind = type(one)
    if is_by_own_method(kind, depth) and is_inside or id(kind) in STEPPED or depth == RANKED and _has_ranked_keys(kind):
        return
    of_elements = name if name.endswith(_OF_ELEMENT) else name + _OF_ELEMENT
    if family_of(kind) is not None or issubclass(kind, (tuple, frozenset)):
        yield from ((part, of_elements) for part in _looked_at(_elements_of(one), depth))
    elif field_inside(kind):
        for part in inside_of(one) if depth not in (SHOWN, WRITTEN) or id(kind) not in _BY_ADDRESS else ():
            if depth in OF_ELEMENTS:
                yield from ((inner, of_elements) for inner in _looked_at(_elements_of(part), depth))
            else:
                yield part, name
    elif kind is partial:
        if depth in (SHOWN, WRITTEN):
            yield one.keywords, f"{name_of(kind)}.keywords"
    elif depth not in OF_ELEMENTS:
        fields = fields_looked_at(one, depth, is_inside)
        yield from ((value_of_field(one, field), f"{name_of(kind)}.{field}") for field in fields)


def _looked_at(elements: list[Any], depth: str) -> list[Any]:
    """The elements that are looked at. One alone is compared with none."""
    return [] if depth == RANKED and len(elements) < 2 else elements


def _has_ranked_keys(kind: type) -> bool:
    """Whether it is gone through by its keys, whose values are not compared: pairs with unequal keys are told apart."""
    return family_of(kind) == DICT or id(kind) in VIEWS and id(kind) not in OF_VALUES


_OF_ELEMENT = "[..]"


def is_by_own_method(kind: type, depth: str) -> bool:
    """Whether a class of the program has a method of its own for such a look at what is inside."""
    return any([has_watched_method(kind, name) for name in _OWN_METHODS.get(depth, ())])


def _elements_of(one: Any) -> list[Any]:
    """The elements of a container, or the values of a dictionary, by the language's own means."""
    kind = type(one)
    if issubclass(kind, dict):
        return list(dict.values(one))
    base = next((base for base in _ROWS if issubclass(kind, base)), None)
    return [] if base is None else list(base.__iter__(one))


_MADE_FOR = {
    SHOWN: ("__repr__", "repr"), WRITTEN: ("__repr__", "repr"), COMPARED: ("__eq__", "compare"),
    ORDERED: ("__lt__", "compare"), HASHED: ("__hash__", "compare"), RANKED: ("__lt__", "compare"),
}
"""The method that `dataclass` makes for such a look, and what it asks each field for."""


def fields_looked_at(one: Any, depth: str, is_inside: bool) -> list[str]:
    """The fields of an object of the program that a function looks at by itself, and by no method of a class that is
    watched.

    What is inside of a container is compared for being equal first, and its text there is that for a programmer.
    """
    kind = type(one)
    if keeps_fields(kind) and depth != CONTENT:
        return [name for name in list(fields_of(one)) if type(name) is str]
    if depth in (SHOWN, WRITTEN) and issubclass(kind, BaseException):
        return ["args"] if "args" in STORED_FIELDS else []
    if depth == CONTENT or not is_watched_class(kind):
        return []
    fields = _declared_fields(kind)
    if depth == DECLARED:
        return [*fields]
    if depth not in _MADE_FOR:
        is_own = any([has_watched_method(kind, name) for name in _STATE_METHODS])
        return [] if is_own else [name for name in (*fields_of(one), *_slots_of(kind)) if type(name) is str]
    method, asked = _MADE_FOR[COMPARED if is_inside and depth == ORDERED else depth]
    has_own_text = depth == SHOWN and not is_inside and any([has_watched_method(kind, name) for name in _TEXT_METHODS])
    if has_own_text or not is_made(kind, method):
        return []
    return [name for name, field in fields.items() if getattr(field, asked)]


_NAMESPACES = frozenset((("types", "SimpleNamespace"), ("argparse", "Namespace"), ("optparse", "Values")))


def keeps_fields(kind: type) -> bool:
    """Whether an object only has the fields that are stored in it, and shows and compares all of them."""
    return kind is SimpleNamespace or (module_of(kind), name_of(kind)) in _NAMESPACES


def _slots_of(kind: type) -> list[str]:
    return [
        name for base in mro_of(kind) for name, value in list(vars_of(base).items())
        if type(value) is MemberDescriptorType
    ]


def _declared_fields(kind: type) -> dict[str, Any]:
    """The fields of a dataclass."""
    owner = class_with(kind, "__dataclass_fields__")
    fields = {} if owner is None else vars_of(owner)["__dataclass_fields__"]
    return {name: field for name, field in fields.items() if _is_declared(field)}


def _is_declared(field: Any) -> bool:
    is_field = type(field) is Field
    return is_field and field._field_type is _FIELD
