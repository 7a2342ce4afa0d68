"""Structures of `ctypes` that processes share: each field of a number or a letter is a thing.

A structure that has more inside, as another one or an array, or fields of a few bits, is not followed.
"""

from __future__ import annotations

import ctypes
from collections.abc import Callable
from typing import Any

from ..model.conflicts import READ, WRITE

Touch = Callable[[Any, str, str], None]
"""Notes a touch of a structure's field, by its name and the kind."""
_Simple: Any = vars(ctypes)["_SimpleCData"]


def is_followed(kind: Any) -> bool:
    """Whether it is a type of structures whose fields are things."""
    if not isinstance(kind, type) or not issubclass(kind, ctypes.Structure):
        return False
    fields = _fields_of(kind)
    return bool(fields) and all(
        len(field) == 2 and isinstance(field[1], type) and issubclass(field[1], _Simple) for field in fields
    )


def _fields_of(kind: type) -> list[Any]:
    return [field for one in kind.__mro__ for field in vars(one).get("_fields_", ())]


def noted(plain: Any, touch: Touch) -> Any:
    """A type of structures whose fields are noted as they are read and written."""
    fields = frozenset(field[0] for field in _fields_of(plain))

    def __getattribute__(self: Any, name: str) -> Any:
        found = plain.__getattribute__(self, name)
        if name in fields:
            touch(self, name, READ)
        return found

    def __setattr__(self: Any, name: str, value: Any) -> None:
        plain.__setattr__(self, name, value)
        if name in fields:
            touch(self, name, WRITE)

    return type(plain.__name__, (plain,), {
        "__getattribute__": __getattribute__, "__setattr__": __setattr__, "_itc_plain": plain,
        "__module__": plain.__module__, "__qualname__": plain.__qualname__,
    })
