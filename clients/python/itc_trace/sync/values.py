"""Traces numbers that processes share, made by `Value`, `RawValue`, `Array` and `RawArray` of `multiprocessing`.

Each number is a thing across processes, and so is each element of an array.
"""

from __future__ import annotations

import contextlib
import ctypes
import itertools
import threading
from collections.abc import Iterator
from types import FrameType, ModuleType
from typing import Any

from ..record import following
from ..model.conflicts import READ, WRITE
from ..model.lines import state
from ..model.lock_identity import variable_of_result
from ..record.noting import touch_at
from ..model.frames import place_of
from ..model.stretches import SharedThing
from . import structures
from .base import Patches
from .later import once_imported

_Simple: Any = vars(ctypes)["_SimpleCData"]
_own = threading.local()
OF_VARIABLE = ", an Array made at "
OF_VALUE = ", a Value made at "
"""They stand behind the name of a variable that an array or a structure was given to first."""
MOST_ELEMENTS = 4096
"""A longer array is not followed."""
_numbers: dict[str, itertools.count[int]] = {}
_noted_types: dict[Any, Any] = {}


def put(patches: Patches) -> None:
    once_imported("multiprocessing.sharedctypes", lambda module: _put_values(patches, module))


def is_making() -> bool:
    """Whether the memory that is taken now is for a number whose touches are noted."""
    return getattr(_own, "is_making", False)


@contextlib.contextmanager
def making() -> Iterator[None]:
    """The memory that is taken within the block is no thing by itself, or one whose touches are noted."""
    _own.is_making = True
    try:
        yield
    finally:
        _own.is_making = False


def _put_values(patches: Patches, module: ModuleType) -> None:
    types: dict[str, Any] = vars(module)["typecode_to_type"]
    patches.wrap(module, "RawValue", lambda original: _raw_value(original, types))
    patches.wrap(module, "RawArray", lambda original: _raw_array(original, types))
    patches.wrap(module, "rebuild_ctype", _rebuild)
    patches.wrap(module, "reduce_ctype", lambda original: _reduce(original, module))


def _is_simple(kind: Any) -> bool:
    return isinstance(kind, type) and issubclass(kind, _Simple)


def _raw_value(original: Any, types: dict[str, Any]) -> Any:
    def RawValue(typecode_or_type: Any, *args: Any) -> Any:
        kind = types.get(typecode_or_type, typecode_or_type)
        if not _is_simple(kind) and not structures.is_followed(kind):
            return original(typecode_or_type, *args)
        with making():
            made = original(typecode_or_type, *args)
        made._wrapper._itc_name = _name(following.frame_of_start(1))
        return made

    return RawValue


def _raw_array(original: Any, types: dict[str, Any]) -> Any:
    def RawArray(typecode_or_type: Any, size_or_initializer: Any) -> Any:
        kind, size = types.get(typecode_or_type, typecode_or_type), size_or_initializer
        count = size if isinstance(size, int) else len(size) if hasattr(size, "__len__") else 0
        if not _is_simple(kind) or count > MOST_ELEMENTS:
            return original(typecode_or_type, size_or_initializer)
        with making():
            made = original(typecode_or_type, size_or_initializer)
        made._wrapper._itc_name = _name(following.frame_of_start(1), "an Array")
        return made

    return RawArray


def _name(frame: FrameType | None, what: str = "a Value") -> str:
    """As `count, a Value made at shop.py:7`. A later one of the same line has its number."""
    if frame is None:
        return what
    variable = variable_of_result(frame.f_code, frame.f_lasti)
    place = f"{variable}, {what} made at" if variable else f"{what.partition(' ')[2]} made at"
    tracer = state.tracer
    maker = f" by {tracer.prefix.rstrip('_')}" if tracer is not None and tracer.prefix else ""
    name = f"{place} {frame.f_code.co_filename}:{frame.f_lineno}{maker}"
    number = next(_numbers.setdefault(name, itertools.count(1)))
    return name if number == 1 else f"{name}, number {number}"


def _rebuild(original: Any) -> Any:
    def rebuild_ctype(type_: Any, wrapper: Any, length: int | None) -> Any:
        if length is not None and _is_simple(type_) and length <= MOST_ELEMENTS:
            return original(_noted_array(type_ * length), wrapper, None)
        if length is None and _is_noted_array(type_):
            return original(_noted_array(type_), wrapper, None)
        if length is None and structures.is_followed(type_):
            return original(_noted_structure(type_), wrapper, None)
        return original(_noted(type_) if length is None and _is_simple(type_) else type_, wrapper, length)

    return rebuild_ctype


def _is_noted_array(kind: Any) -> bool:
    is_array = isinstance(kind, type) and issubclass(kind, ctypes.Array)
    return is_array and _is_simple(kind._type_) and kind._length_ <= MOST_ELEMENTS


def _reduce(original: Any, module: ModuleType) -> Any:
    def reduce_ctype(obj: Any) -> Any:
        told = original(obj)
        plain = getattr(type(obj), "_itc_plain", None)
        if plain is None or isinstance(obj, ctypes.Array):
            return told
        return vars(module)["rebuild_ctype"], (plain, obj._wrapper, None)

    return reduce_ctype


# Arrays


def _noted_array(plain: Any) -> Any:
    """A type of ctypes whose elements are noted as they are read and written."""
    if hasattr(plain, "_itc_plain"):
        return plain
    made = _noted_types.get(plain)
    if made is None:
        names = {
            "__getitem__": _get_element, "__setitem__": _set_element, "_itc_plain": plain,
            "__module__": plain.__module__, "__qualname__": plain.__qualname__,
        }
        made = _noted_types[plain] = type(plain.__name__, (plain,), names)
        for name in ("value", "raw"):
            if hasattr(plain, name):  # It is of letters. The making of the type has put its own there.
                setattr(made, name, _of_all(vars(plain)[name]))
    return made


def _get_element(self: Any, index: Any) -> Any:
    found = self._itc_plain.__getitem__(self, index)
    _touch_elements(self, index, READ)
    return found


def _set_element(self: Any, index: Any, value: Any) -> None:
    self._itc_plain.__setitem__(self, index, value)
    _touch_elements(self, index, WRITE)


def _of_all(plain: Any) -> property:
    def get(self: Any) -> Any:
        _touch_elements(self, slice(None), READ)
        return plain.__get__(self)

    def put(self: Any, value: Any) -> None:
        plain.__set__(self, value)
        _touch_elements(self, slice(None), WRITE)

    return property(get, put)


def _touch_elements(array: Any, index: Any, kind: str) -> None:
    if state.note is None and state.witness is None:
        return
    name = getattr(array._wrapper, "_itc_name", "an Array")
    numbers = range(array._length_)[index if isinstance(index, slice) else slice(index, index + 1 or None)]
    where = place_of(user())
    for number in numbers:
        touch_at(SharedThing(_name_of_element(name, number)), kind, *where)


def _name_of_element(name: str, number: int) -> str:
    variable, is_there, made = name.partition(OF_VARIABLE)
    return f"{variable}[{number}]{is_there}{made}" if is_there else f"{name}, element {number}"


# Structures


def _noted_structure(plain: Any) -> Any:
    if hasattr(plain, "_itc_plain"):
        return plain
    made = _noted_types.get(plain)
    if made is None:
        made = _noted_types[plain] = structures.noted(plain, _touch_field)
    return made


def _touch_field(one: Any, field: str, kind: str) -> None:
    """A structure that is just being made has no name yet, and is nobody else's."""
    name = getattr(one.__dict__.get("_wrapper"), "_itc_name", None)
    if name is not None and (state.note is not None or state.witness is not None):
        variable, is_there, made = name.partition(OF_VALUE)
        told = f"{variable}.{field}{is_there}{made}" if is_there else f"{name}, field {field}"
        touch_at(SharedThing(told), kind, *place_of(user()))


# Numbers


def _noted(plain: Any) -> Any:
    """A type of ctypes whose value is noted as it is read and written."""
    if hasattr(plain, "_itc_plain"):
        return plain
    made = _noted_types.get(plain)
    if made is None:
        names = {
            "value": property(_read, _write), "_itc_plain": plain, "__module__": plain.__module__,
            "__qualname__": plain.__qualname__,
            "__repr__": _as_text if plain.__base__ is _Simple else plain.__repr__,
        }
        made = _noted_types[plain] = type(plain.__name__, (plain,), names)
    return made


def _read(self: Any) -> Any:
    _touch(self, READ)
    return _Simple.value.__get__(self)


def _write(self: Any, value: Any) -> None:
    _touch(self, WRITE)
    _Simple.value.__set__(self, value)


def _as_text(self: Any) -> str:
    return f"{type(self).__name__}({_read(self)!r})"


def _touch(value: Any, kind: str) -> None:
    if state.note is not None or state.witness is not None:
        name = getattr(value._wrapper, "_itc_name", "a Value")
        touch_at(SharedThing(name), kind, *place_of(user()))


def user() -> FrameType | None:
    """The frame of the program."""
    return following.frame_of_start(2)
