"""What an attribute of a type is: a field of the object or of the class, or nothing that is touched.

It is decided once for each place and type. Nothing here runs code of the program: types are looked at by the language's
own means.
"""

from __future__ import annotations

import _csv
import decimal
import functools
import io
import itertools
import sys
import threading
import types
import typing
import weakref
from array import array
from builtins import (
    any, dict, enumerate, filter, frozenset, id, int, issubclass, iter, list, map, next, property, reversed, set, str,
    tuple, type, zip,
)
from collections import OrderedDict, deque, namedtuple
from collections.abc import Iterable
from gc import get_referents
from typing import Any

from .helper import quick
from ..model.kinds import DICT, REFERRED, STREAM, TYPES, TYPES_BY_NAME, WITH_ONE_INSIDE
from ..model.settings import FIELDS_OF_CLASSES
from ..sync.handed_on import HANDED, is_of_container
from .learned import OF_CLASSES, STORED_FIELDS
from .places import DELETED, SKIPPED, Access

SKIP, FIELD, OWN_FIELD, OF_CLASS, OF_TYPE, OF_MODULE, AS_KEY, OF_METHOD, OF_SUPER, OF_CLASS_ALONE, OF_LOCAL = range(11)
OF_ALIAS = 12
"""What an attribute of a generic class with parameters is, as `Box[int]`: that of the class."""
BY_GETTER = 11
"""What an attribute is that a function in C gives, as that of `property(attrgetter("_name"))`."""

WATCHED: set[str] = set()
"""The names of the modules that were rewritten."""

def ids_of(kinds: Iterable[type]) -> frozenset[int]:
    """The identities of types of the library.

    A type itself is no key: its class may be the program's, with a hash of its own.
    """
    return frozenset(map(id, kinds))


PLAIN = ids_of({
    str, int, float, bool, complex, bytes, tuple, frozenset, range, slice, type(None), type(...), type(NotImplemented),
    types.FunctionType, types.BuiltinFunctionType, types.MethodType, super, types.CodeType, types.FrameType,
    types.TracebackType,
})
"""Types whose values cannot change, or are no thing that tasks share by their elements."""

BARE = ids_of({object, types.SimpleNamespace, BaseException, functools.partial})
"""Types that find attributes in the usual way, though their own tables name the methods that do so."""

_USUAL = BARE | PLAIN | ids_of((property, *(kind for kinds in TYPES.values() for kind in kinds)))
"""Types whose attributes are found in the usual way, and so are those of classes below."""

_OF_TUPLES = (types.MemberDescriptorType, type(vars(namedtuple("_Named", "one"))["one"]))
"""What stands in a class for an element of its tuples."""

_BASES = tuple((kind, family) for family, kinds in TYPES.items() for kind in kinds)
_EXACT: dict[int, int] = {id(kind): family for kind, family in _BASES}
NO_FAMILY = -1
_METHODS_OF = {"r": "__getitem__", "w": "__setitem__", "d": "__delitem__", "c": "__contains__"}
"""What is called for each way to touch an element."""

_BY_KEYS: tuple[type, ...] = (
    type({}.keys()), type(OrderedDict().keys()), type(iter({})), type(iter(OrderedDict())), type(reversed({})),
    types.MappingProxyType,
)
_BY_ELEMENTS: tuple[type, ...] = (
    type({}.values()), type({}.items()), type(OrderedDict().values()), type(OrderedDict().items()),
    type(iter({}.values())), type(iter({}.items())), type(reversed({}.values())), type(reversed({}.items())),
    type(iter([])), type(reversed([])), type(iter(set())), type(iter(deque())), type(reversed(deque())),
    type(iter(bytearray())), type(iter(array("b"))),
)
BY_ELEMENTS = ids_of(_BY_ELEMENTS)
"""Views and iterators that look at the elements of a container, and not at the keys of a dictionary alone."""
OF_VALUES = ids_of((type({}.values()), type(OrderedDict().values())))
"""Views of the values of a dictionary alone."""
VIEWS = ids_of((*_BY_KEYS, *_BY_ELEMENTS))
"""Types whose objects refer to the one container that they look at."""

_TABLES: tuple[dict[Any, Any], ...] = ({}, OrderedDict())
_UNCHANGED = ids_of((
    *(type(view) for table in _TABLES for view in (table.keys(), table.values(), table.items())),
    types.MappingProxyType,
))
"""Those of them that no look changes."""
_OF_VALUES = ids_of((
    type(iter(())), type(iter("")), type(iter("\u20ac")), type(iter(b"")), type(iter(range(0))),
    type(iter(range(1 << 70))), type(iter(int, 0)), reversed,
))
ROWS_OF_ITERATORS = ids_of((zip, map, itertools.zip_longest))
"""Types whose objects have the iterators behind them in a tuple."""
COMPOSED = ROWS_OF_ITERATORS | ids_of((
    enumerate, filter, itertools.accumulate, itertools.chain, itertools.combinations,
    itertools.combinations_with_replacement, itertools.compress,
    itertools.cycle, itertools.dropwhile, itertools.filterfalse, itertools.groupby, itertools.islice,
    itertools.pairwise, itertools.permutations,
    itertools.product, itertools.starmap, itertools.takewhile, type(itertools.tee(())[0]), type(_csv.reader(())),
    *(getattr(itertools, name) for name in ("_grouper", "batched") if hasattr(itertools, name)),
))
"""Iterators that go on with others.

One that gives each call a value of its own, whoever comes first, is none: `count` and `repeat`.
"""
FILES = ids_of((io.TextIOWrapper,))
"""Files of text, which go on by lines. Those of bytes have a lock of their own."""
STEPPED = (VIEWS - _UNCHANGED) | _OF_VALUES | COMPOSED | FILES | ids_of((types.GeneratorType,))
"""Iterators: each step changes how far they have come."""
RESUMED = STEPPED | ids_of((types.CoroutineType, types.AsyncGeneratorType))
"""The same, and what goes on where somebody sends it a value, or awaits it."""

_kept_mro_of: Any = vars(type)["__mro__"].__get__
_kept_vars_of: Any = vars(type)["__dict__"].__get__
_kept_module_of: Any = vars(type)["__module__"].__get__
_NOTHING: Any = types.MappingProxyType({})


def _mro_of(kind: type) -> Any:
    """The classes by whose order the type finds its attributes.

    One that the interpreter has not made ready has only itself.
    """
    return _kept_mro_of(kind) or (kind, object)


def _vars_of(kind: type) -> Any:
    return _kept_vars_of(kind) or _NOTHING


_name_of: Any = vars(type)["__name__"].__get__

_families: dict[int, int] = {}
_decided: dict[int, dict[tuple[str, str], int]] = {}
_own_methods: dict[int, dict[str, bool]] = {}
_dictionaries: dict[int, weakref.ref[type] | None] = {}
"""Of each type the class whose descriptor gives the dictionary of an object.

The descriptor itself would hold its class.
"""
_inside: dict[int, str] = {}
_types: dict[int, weakref.ref[type]] = {}


def _remember(kind: type) -> None:
    """Has all that was found out about a type forgotten when the type is gone."""
    key = id(kind)
    if key in _types:
        return

    def gone(_: Any) -> None:
        for table in (_types, _families, _decided, _own_methods, _dictionaries, _inside):
            table.pop(key, None)  # type: ignore[attr-defined]
        for skipped in list(SKIPPED.values()):
            skipped.discard(key)

    _types[key] = weakref.ref(kind, gone)


def forget_decisions() -> None:
    """After a class was given another attribute."""
    _decided.clear()
    _own_methods.clear()
    for skipped in list(SKIPPED.values()):
        skipped.clear()
    if quick is not None:
        quick.forget()


def name_of(kind: type) -> str:
    return str(_name_of(kind))


def is_of_the_package(kind: type) -> bool:
    """Whether it is a stand-in or a lock of this package, which notes by itself."""
    return any(
        str(_vars_of(one).get("__module__", "")).startswith("itc_trace.") or "_itc_name" in _vars_of(one)
        for one in _mro_of(kind)
    )


def family_of(kind: type) -> int | None:
    """Which kind of container a type is."""
    family = _EXACT.get(id(kind))
    if family is not None:
        return family
    family = _families.get(id(kind))
    if family is None:
        _remember(kind)
        family = next((found for base, found in _BASES if issubclass(kind, base)), None)
        if family is None:
            names = [(module_of(one), name_of(one)) for one in _mro_of(kind)]
            family = next((TYPES_BY_NAME[one] for one in names if one in TYPES_BY_NAME), NO_FAMILY)
        if family != NO_FAMILY and is_of_the_package(kind):
            family = NO_FAMILY
        _families[id(kind)] = family
    return None if family == NO_FAMILY else family


def class_with(kind: type, name: str) -> Any:
    """The class that has the attribute, among a class and its bases."""
    return next((one for one in _mro_of(kind) if name in _vars_of(one)), None)


def is_of(kind: type, base: Any) -> bool:
    """Whether it is the class or one below, by the classes' own tables."""
    return any([one is base for one in _mro_of(kind)])


def has_own_method(kind: type, name: str) -> bool:
    """Whether a type of the program has such a method of its own, in place of the container's."""
    if id(kind) in _EXACT:
        return False
    known = _own_methods.setdefault(id(kind), {})
    if name not in known:
        _remember(kind)
        owner = class_with(kind, name)
        is_own = owner is not None and id(owner) not in _EXACT and _is_function(owner, name)
        known[name] = is_own and (is_watched_class(owner) or not (family_of(kind) == STREAM or is_of_library(owner)))
    return known[name]


def _is_function(owner: type, name: str) -> bool:
    return type(_vars_of(owner)[name]) is types.FunctionType


def is_watched_class(kind: type) -> bool:
    """Whether it is a class of a module that is watched."""
    return _vars_of(kind).get("__module__") in WATCHED


def vars_of(kind: type) -> Any:
    return _vars_of(kind)


def mro_of(kind: type) -> Any:
    return _mro_of(kind)


def has_watched_method(kind: type, name: str) -> bool:
    """Whether a class that is watched has such a method of its own."""
    if id(kind) in _EXACT:
        return False
    known, key = _own_methods.setdefault(id(kind), {}), f"watched {name}"
    if key not in known:
        _remember(kind)
        owner = class_with(kind, name)
        is_function = owner is not None and _is_function(owner, name) and not is_made(kind, name)
        known[key] = is_function and _vars_of(owner).get("__module__") in WATCHED
    return known[key]


def has_method_of_settings(kind: type, name: str) -> bool:
    """Whether a class of the library has such a method, which may look at fields that the program sets."""
    if id(kind) in PLAIN:
        return False
    known, key = _own_methods.setdefault(id(kind), {}), f"settings {name}"
    if key not in known:
        _remember(kind)
        known[key] = path_with_settings(kind, name) != "" and not is_other_container(kind)
    return known[key]


def path_with_settings(kind: type, name: str) -> str:
    """The class of the library whose fields a method looks at. Nothing, if a class of the program has the method."""
    for base in _mro_of(kind):
        if is_watched_class(base):
            if name in _vars_of(base):
                return ""
        elif (path := f"{module_of(base)}.{name_of(base)}") in FIELDS_OF_CLASSES:
            return "" if class_with(base, name) is None else path
    return ""


def is_made(kind: type, name: str) -> bool:
    """Whether the method was made by `dataclass` or `namedtuple`, and so has no hooks."""
    owner = class_with(kind, name)
    method = None if owner is None else _vars_of(owner)[name]
    if type(method) is not types.FunctionType:
        return False
    inside = method.__dict__.get("__wrapped__") if method.__globals__.get("__name__") == "reprlib" else None
    if type(inside) is types.FunctionType:
        method = inside  # Since Python 3.13 `dataclass` has its text kept from going round in circles so.
    return method.__code__.co_filename.endswith("<string>") or method.__globals__.get("__name__") in (
        "dataclasses", "collections",
    )


def without_own(kind: type, ways: str) -> str:
    """Of the ways in which an element is touched those that no method of the program stands before.

    Such a method has hooks itself.
    """
    if id(kind) in _EXACT:
        return ways
    return "".join([one for one in ways if not has_watched_method(kind, _METHODS_OF[one])])


def field_inside(kind: type) -> str:
    """The field that has the elements of a container that is written in Python. Nothing, if the type is none."""
    name = _inside.get(id(kind))
    if name is None:
        _remember(kind)
        found = next((field for base, field in WITH_ONE_INSIDE if is_of(kind, base)), "")
        name = _inside[id(kind)] = REFERRED if id(kind) in VIEWS else found
    return name


def is_other_container(kind: type) -> bool:
    """Whether it is a container of a library, whose elements are stored by code that has no hooks."""
    if id(kind) in PLAIN or family_of(kind) is not None or field_inside(kind) or issubclass(kind, types.ModuleType):
        return False
    known, key = _own_methods.setdefault(id(kind), {}), OTHER_CONTAINER
    if key not in known:
        _remember(kind)
        owner = class_with(kind, "__setitem__")
        known[key] = owner is not None and not is_watched_class(owner) and not (
            is_of_the_package(kind) or _top_of(owner) in _FOLLOWED
        )
    return known[key]


OTHER_CONTAINER = "other container"
_FOLLOWED = frozenset(("asyncio", "concurrent", "multiprocessing"))
"""Modules of the library whose classes are followed by other means."""


def is_of_library(kind: type) -> bool:
    """Whether it is a class of the standard library."""
    return _top_of(kind) in sys.stdlib_module_names


def _top_of(kind: type) -> str:
    return module_of(kind).partition(".")[0]


def module_of(kind: type) -> str:
    return str(_kept_module_of(kind))


def fields_of(one: Any) -> Any:
    """The object's own attributes, by the descriptor that the language made for them."""
    kind = type(one)
    if issubclass(kind, type):
        return _vars_of(one)
    key = id(kind)
    if key not in _dictionaries:
        _remember(kind)
        owner = class_with(kind, "__dict__")
        found = None if owner is None else _vars_of(owner)["__dict__"]
        is_of_language = type(found) in (types.GetSetDescriptorType, types.MemberDescriptorType)
        _dictionaries[key] = weakref.ref(owner) if is_of_language else None
    reference = _dictionaries[key]
    kept = None if reference is None else reference()
    if kept is None:
        return ()
    fields = _vars_of(kept)["__dict__"].__get__(one)
    return fields if type(fields) is dict else ()


_NONE_THERE: Any = object()


def _own_value(one: Any, name: str) -> Any:
    """The value of the object's own attribute, if it has one.

    It is found without the dictionary of the object, if that works: the interpreter would have to make one.
    """
    found = NotImplemented if quick is None else quick.own_value(one, name, _NONE_THERE)
    if found is NotImplemented:
        fields = fields_of(one)
        found = fields[name] if name in fields else _NONE_THERE
    return found


def has_field(one: Any, name: str) -> bool:
    """Whether the object itself has an attribute of this name."""
    return _own_value(one, name) is not _NONE_THERE


def value_of_field(one: Any, name: str) -> Any:
    """What stands in a field of the object, which may be a slot. None if nothing does."""
    found = _own_value(one, name)
    if found is not _NONE_THERE:
        return found
    owner = class_with(type(one), name)
    slot = None if owner is None else _vars_of(owner)[name]
    if type(slot) is not types.MemberDescriptorType:
        return None
    try:
        return slot.__get__(one)
    except AttributeError:
        return None


def value_of_element(one: Any, key: Any) -> Any:
    """What stands in an element of one of the library's own containers.

    None if nothing does, or if that is not plain to see.
    """
    if family_of(type(one)) == DICT and id(type(one)) in _EXACT and (type(key) is str or type(key) is int):
        return dict.get(one, key)
    if (type(one) is list or type(one) is tuple) and type(key) is int:
        return next(iter(one[key:key + 1] if key != -1 else one[-1:]), None)
    return None


def has_setter(value: Any) -> bool:
    """Whether what a class has is code that stands before a field of this name, and no slot."""
    return type(value) is not types.MemberDescriptorType and _has(type(value), "__set__")


def is_bound_by_code(value: Any) -> bool:
    """Whether what a class has is given to those who ask for it by code of its own, as a method and a property are."""
    return _has(type(value), "__get__")


def _has(kind: type, name: str) -> bool:
    return any(name in _vars_of(one) for one in _mro_of(kind) if id(one) not in BARE)


def decision(kind: type, access: Access, site: int) -> int:
    """What the attribute of this place is, of an object of this type."""
    known = _decided.get(id(kind))
    if known is None:
        _remember(kind)
        known = _decided[id(kind)] = {}
    of_access = access.name, DELETED if access.words == DELETED else access.kinds
    found = known.get(of_access)
    if found is None:
        found = known[of_access] = SKIP if _is_by_own_method(kind, of_access[1]) else _decide(
            kind, access.name, access.kinds or "r",
        )
    if found == SKIP and access.what != "named":
        SKIPPED[site].add(id(kind))
    return found


_METHOD_OF_FIELDS = {"": "__getattribute__", "r": "__getattribute__", "w": "__setattr__", DELETED: "__delattr__"}
"""What an object does for each way to touch a field."""


def _is_by_own_method(kind: type, way: str) -> bool:
    """Whether a method of a watched class does so for its objects. It has hooks there.

    Classes and modules are seen from outside.
    """
    return not issubclass(kind, (type, types.ModuleType)) and has_watched_method(kind, _METHOD_OF_FIELDS.get(way, ""))


def _decide(kind: type, name: str, kinds: str) -> int:
    if kind is types.MethodType:
        return OF_METHOD
    if kind is super:
        return OF_SUPER if kinds == "r" else SKIP
    if id(kind) in PLAIN and kind is not types.FunctionType:
        return SKIP
    if id(kind) in _ALIASES:
        return SKIP if name.startswith("_") else OF_ALIAS
    if issubclass(kind, types.ModuleType):
        return OF_MODULE
    if issubclass(kind, type):
        return OF_TYPE
    if issubclass(kind, threading.local):
        return OF_LOCAL if "r" in kinds and (is_made_without_code(kind) or _is_of_class(kind, name)) else SKIP
    if is_of_the_package(kind):
        return SKIP
    owner = class_with(kind, name)
    if _finds_keys(kind, kinds, owner is None):
        return AS_KEY
    if owner is not None and (_is_plain_field(owner, name) or _is_field_of_library(owner, name)):
        return FIELD
    if owner is not None and kinds == "r" and is_by_getter(_vars_of(owner)[name]):
        return BY_GETTER
    if _finds_by_itself(kind) or owner is not None and _is_of_tuple(kind, owner, name):
        return OWN_FIELD
    if owner is not None:
        return _decide_of_class(kind, owner, name, kinds)
    if _has(kind, "__getattr__") or "w" in kinds and _has(kind, "__setattr__"):
        return OWN_FIELD
    return OF_CLASS if kinds == "r" and is_stored_in_class(name) and is_watched_class(kind) else FIELD


_ALIASES = ids_of((types.GenericAlias, vars(typing)["_GenericAlias"]))
"""Types of a generic class with parameters, which hand attributes on to the class."""


def is_made_without_code(kind: type) -> bool:
    """Whether a class has no `__init__`: one of a `threading.local` runs as each thread first asks for a field."""
    return class_with(kind, "__init__") is object


def _is_of_class(kind: type, name: str) -> bool:
    """Whether an object of a class may find the attribute there alone, and it is no code that nobody replaces."""
    owner = class_with(kind, name)
    if owner is None:
        return is_stored_in_class(name) and is_watched_class(kind)
    return is_watched_class(owner) and _decide_of_class(kind, owner, name, "r") in (OF_CLASS, OF_CLASS_ALONE)


def is_found_in_class(local: Any, name: str) -> bool:
    """Whether the thread that asks finds the attribute of its `threading.local` in the class, which all threads have.

    If the class has an `__init__`, the fields of all threads are looked at, and none may have this name.
    """
    kind = type(local)
    return _is_of_class(kind, name) and not any([name in fields for fields in _fields_of_local(local)])


def _fields_of_local(local: Any) -> list[dict[str, Any]]:
    """The fields of the thread that asks, or those of all threads where asking would run code of the program."""
    if is_made_without_code(type(local)):
        return [_of_local(local, "__dict__")]
    tables = [one for one in get_referents(local) if type(one) is dict]
    return [fields for table in tables for fields in list(table.values()) if type(fields) is dict]


_of_local: Any = vars(threading.local)["__getattribute__"]


def _finds_by_itself(kind: type) -> bool:
    """Whether a class has a way of its own to find attributes. A container of the language has the usual one."""
    return any("__getattribute__" in _vars_of(one) for one in _mro_of(kind) if id(one) not in _USUAL)


def is_by_getter(value: Any) -> bool:
    """Whether it is a property whose value a function in C finds, which has no hooks."""
    return type(value) is property and type(value.fget) in HANDED and is_of_container(value.fget)


def _is_of_tuple(kind: type, owner: type, name: str) -> bool:
    """Whether the attribute is one of a tuple with names, which nobody can change."""
    return issubclass(kind, tuple) and type(_vars_of(owner).get(name)) in _OF_TUPLES


def _finds_keys(kind: type, kinds: str, is_missing: bool) -> bool:
    """Whether a dictionary's own methods stand for those of attributes, as in `__getattr__ = dict.__getitem__`."""
    methods = _KEYS_AS_ATTRIBUTES if is_missing else _KEYS_AS_ATTRIBUTES[1:]
    needed = [own for way, own, _ in methods if way in kinds]
    return family_of(kind) == DICT and bool(needed) and all(
        [_is_of_dictionary(kind, own, its) for way, own, its in methods if way in kinds]
    )


_KEYS_AS_ATTRIBUTES = (("r", "__getattr__", ("__getitem__", "get")), ("w", "__setattr__", ("__setitem__",)))


def _is_of_dictionary(kind: type, name: str, methods: tuple[str, ...]) -> bool:
    owner = class_with(kind, name)
    return owner is not None and owner is not object and any(
        [_vars_of(owner)[name] is vars(dict)[method] for method in methods]
    )


_WITH_PLAIN_FIELDS = ids_of((BaseException, types.FunctionType, decimal.Context))
"""Types of the language whose own attributes are fields that a program may store."""


def _is_plain_field(owner: type, name: str) -> bool:
    """Whether it is such a field, and some module stores one of this name."""
    is_stored = id(owner) in _WITH_PLAIN_FIELDS and name in STORED_FIELDS
    return is_stored and type(_vars_of(owner)[name]) is types.GetSetDescriptorType


def is_stored_in_class(name: str) -> bool:
    """Whether a module stores such a name in a class, where it may come and go."""
    return OF_CLASSES + name in STORED_FIELDS


def _may_be_replaced(owner: type, name: str, kinds: str) -> bool:
    """Whether a method or a property that is looked up may be another one by then: a module stores such a name."""
    return kinds == "r" and name in STORED_FIELDS and id(owner) not in BARE and is_watched_class(owner)


_SET_IN_C = frozenset((("xml.etree.ElementTree", "Element"),))
"""Classes of the library, by module and name, whose attributes in C may be set."""


def _is_field_of_library(owner: type, name: str) -> bool:
    """Whether it is a property of a class without hooks that may be set, and some module stores such a name.

    Whoever sets it and whoever asks for it touch a field, as far as anybody can see from outside.
    """
    if name not in STORED_FIELDS or is_watched_class(owner) or _top_of(owner) in _FOLLOWED:
        return False
    value = _vars_of(owner)[name]
    if type(value) is property:
        return value.fset is not None
    return type(value) is types.GetSetDescriptorType and (module_of(owner), name_of(owner)) in _SET_IN_C


def _decide_of_class(kind: type, owner: type, name: str, kinds: str) -> int:
    """The class has something of that name: a descriptor is code or a slot,
    anything else a value that objects may hide."""
    value = _vars_of(owner)[name]
    if type(value) is types.MemberDescriptorType:
        return FIELD
    if type(value) is functools.cached_property:
        return FIELD  # The value stands in the object's own field, which others may drop.
    if _has(type(value), "__get__"):
        stands_before_field = _has(type(value), "__set__")
        if kinds == "w" and not stands_before_field:
            return FIELD
        of_class = OF_CLASS_ALONE if stands_before_field else OF_CLASS
        return of_class if _may_be_replaced(owner, name, kinds) else SKIP
    if "w" in kinds and _has(kind, "__setattr__"):
        return OWN_FIELD
    return OF_CLASS

