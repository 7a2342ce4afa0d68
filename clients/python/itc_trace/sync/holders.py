"""Who refers to some objects, and another object in the place of one of them wherever that can be put."""

from __future__ import annotations

import gc
import os
import sys
from collections import deque
from collections.abc import Callable, Iterator, Sequence
from contextlib import contextmanager
from types import (
    AsyncGeneratorType, BuiltinMethodType, CellType, CoroutineType, FrameType, FunctionType, GeneratorType,
    MemberDescriptorType, ModuleType,
)
from typing import Any, NamedTuple

from ..model.frames import INTERNAL, INTERNAL_MODULES, is_internal
from ..model.frames_of_threads import are_followed
from ..record.raised_within import is_of_library
from ..record.tuple_items import c_types, put_item

_SUSPENDED: dict[type, str] = {GeneratorType: "gi_frame", CoroutineType: "cr_frame", AsyncGeneratorType: "ag_frame"}
_NAMELESS = (list, tuple, dict, set, frozenset, deque, CellType, FrameType, FunctionType, BuiltinMethodType)
"""What belongs to whoever refers to it in turn."""
_namespace_of = object.__getattribute__
IS_COPY = sys.version_info < (3, 13)
"""Whether the variables of a frame are a copy, which the C API writes back."""
OF_FRAME_ALONE = 4
"""So many refer to the copy that is looked at if only its frame has it."""
_OPTIMIZED = 1
"""The flag of code whose variables are not in a namespace."""


class Holder(NamedTuple):
    """Something that refers to one of the objects: a namespace with its owner, another object, or a frame."""

    one: Any
    owner: Any

    @property
    def module(self) -> str:
        """Whose it is: the module's name, or nothing."""
        owner = self.owner
        if type(owner) is FrameType:
            return str(owner.f_globals.get("__name__", ""))
        named = owner.__name__ if isinstance(owner, ModuleType) else getattr(
            owner if isinstance(owner, type) else type(owner), "__module__", ""
        )
        return "" if type(owner) in _NAMELESS else str(named)

    @property
    def is_of_library(self) -> bool:
        """Whether the library keeps the object here for itself."""
        module, first = self.module, self.module.partition(".")[0]
        if type(self.owner) is FrameType:
            return is_internal(self.owner)
        is_global = isinstance(self.owner, ModuleType) and first in sys.stdlib_module_names
        return first in INTERNAL or module in INTERNAL_MODULES or is_global

    @property
    def place(self) -> str:
        """The file that has it, or nothing."""
        if type(self.owner) is FrameType:
            return os.path.basename(self.owner.f_code.co_filename)
        file = getattr(sys.modules.get(self.module), "__file__", None)
        return os.path.basename(file) if isinstance(file, str) else ""

    def names(self, old: object) -> list[str]:
        """What the object is called here."""
        if type(self.one) is FrameType:
            return _locals_with(self.one, old)
        return [key for key, value in _variables(self.one).items() if value is old and type(key) is str]


def holders_of(objects: Sequence[object]) -> dict[int, list[Holder]]:
    """By the object's identity."""
    known = {id(one): list[Holder]() for one in objects}
    mark = object()
    """In the tuple by which the objects are handed over, which the collector may find, too."""
    found = [one for one in gc.get_referrers(mark, *objects) if one is not objects and type(one) is not FrameType]
    referring = [one for one in found if type(one) is not tuple or not any(held is mark for held in one)]
    owners = _owners([one for one in referring if type(one) is dict])
    for one in referring:
        holder = Holder(one, owners.get(id(one), one))
        for identity in {id(held) for held in gc.get_referents(one)} & known.keys():
            known[identity].append(holder)
    for frame in _frames():
        with _locals_of(frame) as variables:
            here = {id(value) for value in variables.values()} & known.keys()
        for identity in here:
            known[identity].append(Holder(frame, frame))
    return known


def _owners(namespaces: list[dict[Any, Any]]) -> dict[int, Any]:
    """The module, the class or the object that a namespace is of."""
    known = {id(one) for one in namespaces}
    found: dict[int, Any] = {}
    for owner in gc.get_referrers(*namespaces):
        if owner is namespaces or type(owner) in _NAMELESS:
            continue
        for identity in {id(held) for held in gc.get_referents(owner)} & known:
            if isinstance(owner, type) or id(_variables(owner)) == identity:
                found[identity] = owner
    return found


def _frames() -> Iterator[FrameType]:
    """Those of the program's functions that run. The interpreter does not say what they refer to."""
    for top in sys._current_frames().values():
        frame: FrameType | None = top
        while frame is not None:
            code = frame.f_code
            if code.co_flags & _OPTIMIZED and not is_internal(frame) and not is_of_library(code.co_filename):
                yield frame
            frame = frame.f_back


def _variables(owner: Any) -> dict[Any, Any]:
    if isinstance(owner, dict):
        return owner
    try:
        found = _namespace_of(owner, "__dict__")
    except AttributeError:
        return {}
    return found if isinstance(found, dict) else {}


def replace(holder: Holder, old: object, new: object) -> bool:
    """Gives whether the holder refers to the new object in the place of the old one."""
    kind = next((kind for kind in _WAYS if isinstance(holder.one, kind)), object)
    return _WAYS.get(kind, _in_object)(holder, old, new)


def _in_dict(holder: Holder, old: object, new: object) -> bool:
    if any(key is old for key in holder.one):
        return False
    for key in [key for key, value in holder.one.items() if value is old]:
        if isinstance(holder.owner, type):
            type.__setattr__(holder.owner, key, new)
        else:
            dict.__setitem__(holder.one, key, new)
    return True


def _in_sequence(holder: Holder, old: object, new: object) -> bool:
    for place in [place for place, value in enumerate(holder.one) if value is old]:
        holder.one[place] = new
    return True


def _in_tuple(holder: Holder, old: object, new: object) -> bool:
    return all([put_item(holder.one, place, new) for place, value in enumerate(holder.one) if value is old])


def _in_set(holder: Holder, old: object, new: object) -> bool:
    holder.one.discard(old)
    holder.one.add(new)
    return True


def _in_cell(holder: Holder, _: object, new: object) -> bool:
    holder.one.cell_contents = new
    return True


def _in_frame(holder: Holder, old: object, new: object) -> bool:
    return bool(_locals_with(holder.one, old, new))


def _in_suspended(holder: Holder, old: object, new: object) -> bool:
    frame = getattr(holder.one, _SUSPENDED[type(holder.one)])
    return frame is not None and bool(_locals_with(frame, old, new))


def _locals_with(frame: FrameType, value: object, new: object = None) -> list[str]:
    """The names of the variables with this value, which are given a new one if there is one.

    No other thread goes on between the look at a copy and the time when it is written back.
    """
    ctypes = c_types() if IS_COPY and new is not None else None
    if IS_COPY and new is not None and ctypes is None:
        return []
    with _locals_of(frame) as variables:
        names = [name for name, one in variables.items() if one is value]
        for name in names if new is not None else ():
            variables[name] = new
        if names and ctypes is not None:
            ctypes.pythonapi.PyFrame_LocalsToFast(ctypes.py_object(frame), 0)
    return names


@contextmanager
def _locals_of(frame: FrameType) -> Iterator[dict[str, Any]]:
    """The variables of a function's frame. If they are a copy that nobody else has, it holds nothing any more.

    It stays if a debugger may have the interpreter take the variables from it.
    """
    variables = frame.f_locals
    yield variables
    if IS_COPY and sys.getrefcount(variables) <= OF_FRAME_ALONE and not are_followed():
        variables.clear()


def _in_object(holder: Holder, old: object, new: object) -> bool:
    """Its attributes, in a namespace or in slots."""
    variables = _variables(holder.one)
    names = [name for name, value in variables.items() if value is old]
    for name in names:
        dict.__setitem__(variables, name, new)
    for slot in _slots(type(holder.one)):
        try:
            is_there = slot.__get__(holder.one) is old
        except AttributeError:
            continue
        if is_there:
            slot.__set__(holder.one, new)
            names.append(slot.__name__)
    return bool(names)


def _slots(kind: type) -> list[MemberDescriptorType]:
    return [one for base in kind.__mro__ for one in vars(base).values() if type(one) is MemberDescriptorType]


_WAYS: dict[type, Callable[[Holder, object, object], bool]] = {
    dict: _in_dict, list: _in_sequence, deque: _in_sequence, tuple: _in_tuple, set: _in_set, CellType: _in_cell,
    FrameType: _in_frame, **dict.fromkeys(_SUSPENDED, _in_suspended),
}
