"""Stand-ins: each stands before an object, and notes what is read and written there."""

from __future__ import annotations

import sys
import types
from collections import deque
from collections.abc import Callable
from typing import Any

from ..model.conflicts import READ, WRITE
from ..model.kinds import BUFFER, LIST, TYPES
from .containers import (
    CONTAINERS, OF_VARIABLE, READS, WRITES, is_held_by, is_method, iteration, note, noted, view_of,
)

_OWN = frozenset(
    "__class__ __new__ __init__ __del__ __init_subclass__ __subclasshook__ __class_getitem__ __set_name__ "
    "__getattribute__ __getattr__ __setattr__ __delattr__ __dir__ __hash__ __reduce__ __reduce_ex__ __getstate__ "
    "__setstate__ __getnewargs__ __getnewargs_ex__ __sizeof__ __slots__ __dict__ __weakref__ __doc__ __module__ "
    "__annotations__".split()
)
"""Special methods that a stand-in has of its own, or has no use for."""

_IN_PLACE = frozenset(
    f"__{one}__" for one in "iadd isub imul imatmul itruediv ifloordiv imod ipow ilshift irshift iand ixor ior".split()
)
_CHANGING = _IN_PLACE | WRITES | {"__next__", "__anext__", "__set__", "__delete__"}

_SYNCHRONIZING = frozenset(
    "threading _thread queue _queue asyncio _asyncio concurrent multiprocessing contextvars _contextvars".split()
)
"""Modules whose objects keep tasks in order, or belong to a task. Whoever reads such an attribute touches nothing."""

_OF_KNOWN_METHODS = (*CONTAINERS, *TYPES[LIST], *TYPES[BUFFER])
"""Types of the library of which it is known whether a method writes."""

_synchronizing: dict[type, bool] = {}


def stand_in(value: Any, name: str) -> Any:
    """What stands before the value. Containers in its attributes are noted too, where nobody else holds them."""
    _note_parts(value, name)
    made: Any = object.__new__(_type_for(type(value)))
    object.__setattr__(made, "_itc_value", value)
    object.__setattr__(made, "_itc_name", name)
    names = getattr(value, "__dict__", None)
    if type(names) is dict:
        # Methods that set an attribute by `object.__setattr__` set the value's.
        object.__setattr__(made, "__dict__", names)
    return made


def _note_parts(value: Any, name: str) -> None:
    names = getattr(value, "__dict__", None)
    if type(names) is dict:
        for key in list(names):
            part = names[key]
            if is_held_by(part, OF_VARIABLE + 1):
                names[key] = noted(part, name)
    for kind in type(value).__mro__:
        for slot in [one for one in vars(kind).values() if type(one) is types.MemberDescriptorType]:
            part = slot.__get__(value, kind) if _is_set(slot, value) else None
            if is_held_by(part, OF_VARIABLE + 1):
                slot.__set__(value, noted(part, name))


def _is_set(slot: Any, value: Any) -> bool:
    try:
        slot.__get__(value)
    except AttributeError:
        return False
    return True


_types: dict[type, type] = {}


def _type_for(base: type) -> type:
    made = _types.get(base)
    if made is None:
        names = [one for one in dir(base) if one.startswith("__") and one.endswith("__") and one not in _OWN]
        methods = {one: _special(base, one) for one in names if is_method(base, one)}
        marks = {one: getattr(base, one) for one in names if not callable(getattr(base, one, len))}
        own = {"__hash__": StandIn.__hash__, "__reduce_ex__": StandIn.__reduce_ex__}
        if issubclass(base, (list, deque, bytearray)):
            own["__radd__"] = _added_to
        made = _types[base] = type(base.__name__, (StandIn,), {**marks, **methods, **own})
    return made


def _added_to(self: Any, other: Any) -> Any:
    note(name_of(self), READ)
    return other + value_of(self)


def _special(base: type, name: str) -> Callable[..., Any]:
    found = getattr(base, name)
    if isinstance(found, types.FunctionType):
        return found  # It is called with the stand-in, and what it does to its attributes is noted there.
    kind = WRITE if name in _CHANGING else READ

    def method(self: Any, *args: Any, **kwargs: Any) -> Any:
        value, thing = object.__getattribute__(self, "_itc_value"), object.__getattribute__(self, "_itc_name")
        note(thing, kind)
        told = found(value, *(value_of(one) for one in args), **kwargs)
        if told is value:
            return self
        return iteration(told, thing) if name in ("__iter__", "__reversed__") else told

    method.__name__ = name
    return method


def value_of(one: Any) -> Any:
    is_stand_in = isinstance(type(one), type) and issubclass(type(one), StandIn)
    return object.__getattribute__(one, "_itc_value") if is_stand_in else one


def name_of(one: StandIn) -> str:
    return str(object.__getattribute__(one, "_itc_name"))


class StandIn:
    """Stands before an object: attributes are read and written there, and each time is noted."""

    __slots__ = ("_itc_value", "_itc_name", "__weakref__")

    @property  # type: ignore[misc]
    def __class__(self) -> Any:
        return type(object.__getattribute__(self, "_itc_value"))

    def __getattribute__(self, name: str) -> Any:
        value = object.__getattribute__(self, "_itc_value")
        if name == "__dict__":
            note(object.__getattribute__(self, "_itc_name"), READ)
            return value.__dict__
        if name in type(self).__dict__:
            return object.__getattribute__(self, name)
        if name.startswith("__") and name.endswith("__"):
            return getattr(value, name)
        found = _class_attribute(type(value), name)
        if isinstance(found, types.FunctionType) and name not in _instance_names(value):
            return types.MethodType(found, self)
        if isinstance(found, property) and isinstance(found.fget, types.FunctionType):
            return found.fget(self)
        if callable(found) and isinstance(value, _OF_KNOWN_METHODS):
            return _noted_method(value, name, object.__getattribute__(self, "_itc_name"))
        try:
            told = getattr(value, name)
        except AttributeError:
            note(object.__getattribute__(self, "_itc_name"), READ)
            raise
        if not _keeps_order(type(told)):
            note(object.__getattribute__(self, "_itc_name"), READ)
        return told

    def __setattr__(self, name: str, new: Any) -> None:
        value, thing = object.__getattribute__(self, "_itc_value"), object.__getattribute__(self, "_itc_name")
        found = _class_attribute(type(value), name)
        if isinstance(found, property) and isinstance(found.fset, types.FunctionType):
            found.fset(self, new)
            return
        note(thing, WRITE)
        if is_held_by(new, OF_ATTRIBUTE):
            new = noted(new, thing)
        setattr(value, name, new)

    def __delattr__(self, name: str) -> None:
        note(object.__getattribute__(self, "_itc_name"), WRITE)
        delattr(object.__getattribute__(self, "_itc_value"), name)

    def __repr__(self) -> str:
        return repr(object.__getattribute__(self, "_itc_value"))

    def __str__(self) -> str:
        return str(object.__getattribute__(self, "_itc_value"))

    def __hash__(self) -> int:
        return hash(object.__getattribute__(self, "_itc_value"))

    def __eq__(self, other: object) -> bool:
        return bool(object.__getattribute__(self, "_itc_value") == value_of(other))

    def __bool__(self) -> bool:
        value = object.__getattribute__(self, "_itc_value")
        if hasattr(type(value), "__len__"):
            note(object.__getattribute__(self, "_itc_name"), READ)
        return bool(value)

    def __dir__(self) -> list[str]:
        return dir(object.__getattribute__(self, "_itc_value"))

    def __reduce_ex__(self, protocol: Any) -> Any:
        note(object.__getattribute__(self, "_itc_name"), READ)
        return object.__getattribute__(self, "_itc_value").__reduce_ex__(protocol)


class _Probe:
    found = 0

    def __setattr__(self, name: str, new: Any) -> None:
        object.__setattr__(self, "found", sys.getrefcount(new))


def _probed() -> int:
    probe = _Probe()
    probe.attribute = {}
    return probe.found


OF_ATTRIBUTE = _probed() if OF_VARIABLE else 0
"""How many references a container has that is made for an attribute alone, while the attribute is set."""


def _class_attribute(kind: type, name: str) -> Any:
    for one in kind.__mro__:
        if name in vars(one):
            return vars(one)[name]
    return None


def _instance_names(value: Any) -> Any:
    return getattr(value, "__dict__", ())


def _keeps_order(kind: type) -> bool:
    """Whether it is a type of a lock, a queue or the like."""
    known = _synchronizing.get(kind)
    if known is None:
        modules = [getattr(one, "__module__", "") for one in kind.__mro__]
        known = any(
            isinstance(module, str)
            and (module.partition(".")[0] in _SYNCHRONIZING or module.startswith("itc_trace.sync"))
            for module in modules
        )
        _synchronizing[kind] = known
    return known


def _noted_method(value: Any, name: str, thing: str) -> Callable[..., Any]:
    method, kind = getattr(value, name), READ if name in READS else WRITE

    def called(*args: Any, **kwargs: Any) -> Any:
        note(thing, kind)
        told = method(*args, **kwargs)
        return view_of(told, name, thing) if name in ("keys", "values", "items") else told

    called.__name__ = name
    return called
