"""What keys of dictionaries and sets are known by: keys that are equal are one key,
as far as no code of the program has to say so."""

from __future__ import annotations

import sys
from builtins import (
    all, any, bytes, float, frozenset, id, int, len, list, map, object, slice, str, tuple, type, vars, zip,
)
from collections.abc import Callable
from enum import Enum
from types import (
    BuiltinMethodType, GenericAlias, MethodType, MethodWrapperType, ModuleType, UnionType, WrapperDescriptorType,
)
from typing import Any

from ..sync.earlier import FollowedRLock
from ..sync.locks import TracedLock
from . import passed_over
from .decisions import class_with, fields_of, ids_of, is_made, is_of, name_of, value_of_field, vars_of

SIMPLE = ids_of((str, int, bytes, float, bool, type(None)))
MOST_PARTS = 32
LIBRARY = {
    "datetime": ("date", "datetime", "time", "timedelta", "timezone"), "decimal": ("Decimal",),
    "fractions": ("Fraction",), "uuid": ("UUID",),
    "pathlib": ("PurePosixPath", "PureWindowsPath", "PosixPath", "WindowsPath"), "builtins": ("complex", "range"),
    "ipaddress": (
        "IPv4Address", "IPv6Address", "IPv4Network", "IPv6Network", "IPv4Interface", "IPv6Interface",
    ),
    "zoneinfo": ("ZoneInfo",), "statistics": ("NormalDist",), "collections": ("UserString",),
    "re": ("Pattern",),
}
"""Types of the library whose values are compared by code of the library alone."""
ZONED = ("datetime", "time")
IN_C: dict[tuple[str, str], Callable[[Any, Any], Any]] = {
    ("datetime", "datetime"): lambda base, key: base.combine(base.date(key), base.timetz(key)),
    ("datetime", "date"): lambda base, key: base.fromordinal(base.toordinal(key)),
    ("datetime", "timedelta"): lambda base, key: base.__add__(key, base()),
    ("decimal", "Decimal"): lambda base, key: base(key),
}
"""Types of the library whose code in C compares values of classes below, and what gives the plain value of such a one.

None of it runs code of the class.
"""


_STANDING = (TracedLock, FollowedRLock)
"""Locks that stand before another one, and are equal to that."""
OBJECT = "object"
"""Stands before the identity of a key that is equal to itself alone."""
BY_IDENTITY_OF: dict[str, tuple[Any, ...]] = {"__eq__": (object, type), "__hash__": (object, type, Enum)}
"""The classes whose method compares by identity, or goes with one that does so: `Enum` hashes a member's name."""
PLAIN_VALUES: tuple[tuple[type, Callable[[Any], Any]], ...] = (
    (str, str.__str__), (int, int.__int__), (float, float.__float__),
    (bytes, lambda key: bytes.__getitem__(key, slice(None))),
    (tuple, lambda key: tuple.__getitem__(key, slice(None))), (frozenset, frozenset.copy),
)
"""Types of the library, and what gives the value of a key of a class below without any code of that class."""


FIELDS = "__dataclass_fields__"


class Unknown:
    """Stands for a key that only code of the program can compare."""


UNKNOWN = Unknown()


def value_of(key: Any) -> Any:
    """A value that is equal for equal keys. `UNKNOWN` if only code of the program could tell."""
    kind = type(key)
    if id(kind) in SIMPLE or _is_of_library(key, kind):
        return key
    if kind is MethodType or kind is BuiltinMethodType or kind is MethodWrapperType:
        return _value_of_method(key)
    if _is_by_identity(kind):
        return OBJECT, id(key)
    if any([is_of(kind, one) for one in _STANDING]):
        return OBJECT, id(key._lock)
    alias = _value_of_alias(key, kind)
    if alias is not None:
        return alias
    plain = _plain_value(key, kind)
    if plain is UNKNOWN:
        plain = _value_below_library(key, kind)
    if plain is not UNKNOWN:
        return plain
    if kind is frozenset or kind is tuple or _is_named_tuple(kind):
        values = _parts(key, frozenset if kind is frozenset else tuple)
        is_itself = kind is tuple and values is not UNKNOWN and all([one is value for one, value in zip(key, values)])
        return key if is_itself else values
    if is_made(kind, "__eq__") and is_made(kind, "__hash__"):
        values = _parts(_compared_fields(key, class_with(kind, FIELDS)), tuple)
        return values if values is UNKNOWN else (id(kind), values)
    return UNKNOWN


def _compared_fields(key: Any, owner: Any) -> list[Any]:
    """What stands in the fields by which objects of a dataclass are equal."""
    return [value_of_field(key, name) for name, field in vars_of(owner)[FIELDS].items() if field.compare]


def _value_of_method(key: Any) -> Any:
    """Two bound methods are equal if they are one function of one object, and functions of modules are themselves."""
    if type(key) is MethodType:
        return OBJECT, id(key.__self__), id(key.__func__)
    return (OBJECT, id(key)) if type(key.__self__) is ModuleType else (OBJECT, id(key.__self__), key.__name__)


def _is_by_identity(kind: type) -> bool:
    """Whether a key is equal to itself alone: the type, or each of its bases, has no method for it.

    So it is of functions, modules, classes, members of an `Enum`, and most objects.
    """
    owners = {name: class_with(kind, name) for name in BY_IDENTITY_OF}
    is_of_c = type(vars_of(owners["__hash__"])["__hash__"]) is WrapperDescriptorType
    return all([
        any([owners[name] is one for one in kinds]) or is_of_c and name == "__hash__"
        for name, kinds in BY_IDENTITY_OF.items()
    ])


UNION, ALIAS = "union", "alias"
_args_of: Any = vars(GenericAlias)["__args__"].__get__
_origin_of: Any = vars(GenericAlias)["__origin__"].__get__
_args_of_union: Any = vars(UnionType)["__args__"].__get__


def _value_of_alias(key: Any, kind: type) -> Any:
    """What a type with parameters is known by, as `list[int]`, `int | None` or `typing.Optional[int]`.

    None, if it is none. The order of a union does not matter.
    """
    if is_of(kind, GenericAlias) and class_with(kind, "__eq__") is GenericAlias:
        return _of_parts((ALIAS, value_of(_origin_of(key)), _parts(_args_of(key), tuple)))
    if kind is UnionType:
        return _of_parts((UNION, _parts(_args_of_union(key), frozenset)))
    typing = sys.modules.get("typing", sys)
    if kind is vars(typing).get("_UnionGenericAlias") or kind is vars(typing).get("_GenericAlias"):
        fields = fields_of(key)
        if fields["__origin__"] is vars(typing)["Union"]:
            return _of_parts((UNION, _parts(fields["__args__"], frozenset)))
        return _of_parts((f"typing {ALIAS}", value_of(fields["__origin__"]), _parts(fields["__args__"], tuple)))
    return None


def _of_parts(values: tuple[Any, ...]) -> Any:
    return UNKNOWN if any([value is UNKNOWN for value in values]) else values


def _plain_value(key: Any, kind: type) -> Any:
    """The text, number or tuple that a key of a class below one of these is equal to, by no code of the program."""
    for base, plain in PLAIN_VALUES:
        if is_of(kind, base):
            is_plain = all([class_with(kind, name) is base for name in ("__eq__", "__hash__")])
            return value_of(plain(key)) if is_plain and kind is not base else UNKNOWN
    return UNKNOWN


def _parts(parts: Any, kind: Any) -> Any:
    if len(parts) > MOST_PARTS:
        return UNKNOWN
    values = [*map(value_of, parts)]
    return UNKNOWN if UNKNOWN in [one for one in values if type(one) is Unknown] else kind(values)


def _is_of_library(key: Any, kind: type) -> bool:
    """Whether it is a value of the library, and no class of the program has a part in it."""
    for module, names in LIBRARY.items():
        name = name_of(kind)
        if name in names and vars(sys.modules.get(module, sys)).get(name) is kind:
            return name not in ZONED or key.tzinfo is None or _is_of_library(key.tzinfo, type(key.tzinfo))
    return False


def _value_below_library(key: Any, kind: type) -> Any:
    """The plain value of a key whose class leaves all comparing to a class of the library."""
    for (module, name), plain in IN_C.items():
        base = vars(sys.modules.get(module, sys)).get(name)
        if base is not None and is_of(kind, base) and all([class_with(kind, one) is base for one in BY_IDENTITY_OF]):
            value = plain(base, key)
            return value if _is_of_library(value, type(value)) else UNKNOWN
    return UNKNOWN


def _is_named_tuple(kind: type) -> bool:
    """Whether it is a tuple with names, which compares as any tuple does."""
    methods = [class_with(kind, name) for name in ("__eq__", "__hash__")]
    return is_of(kind, tuple) and class_with(kind, "_fields") is not None and all([one is tuple for one in methods])


def tell_of_unknown(key: Any, site: int) -> None:
    """A key that is known by its identity alone may be equal to another one, and nobody knows.

    The last line says so.
    """
    member = _unknown_in(key)
    within = "" if member is key else f" in a {name_of(type(key))}"
    passed_over.keep_site(f"keys of type {name_of(type(member))}{within}", site)


def _unknown_in(key: Any) -> Any:
    """The member of a key that only code of the program can compare, which may be the key itself."""
    for one in _members_of(key, type(key)):
        if value_of(one) is UNKNOWN:
            return _unknown_in(one)
    return key


def _members_of(key: Any, kind: type) -> list[Any]:
    if is_of(kind, frozenset):
        return list(frozenset.__iter__(key))
    if is_of(kind, tuple):
        return list(tuple.__iter__(key))
    owner = class_with(kind, FIELDS) if is_made(kind, "__eq__") else None
    return [] if owner is None else _compared_fields(key, owner)
