"""Wraps what tasks share, so that each read and each write of it is noted."""

from __future__ import annotations

import sys
import types
import warnings
from typing import Any, TypeVar, cast

from ..model.conflicts import MAKING
from .containers import is_noted_by_type, noted
from ..model.lines import state
from ..record.noting import touch_at
from ..model.frames import frame_at, place_of
from .stand_ins import stand_in
from ..model.stretches import Across

T = TypeVar("T")

NEVER_WRAPPED = (
    type(None), bool, int, float, complex, str, bytes, tuple, frozenset, type, types.FunctionType,
    types.BuiltinFunctionType,
    types.ModuleType,
)
"""What cannot change, or is no thing that tasks share."""


def _references(value: object) -> int:
    return sys.getrefcount(value)


REFERENCES_OF_A_NEW_VALUE = _references({}) if sys.version_info < (3, 14) else 0
"""How many references a value has that was made for the call alone. Later Pythons do not count those of variables."""


def shared(value: T, name: str, across: bool = False) -> T:
    """What behaves as the value, and notes each read and each write of it.

    It is a thing of this process, unless it is one across all processes that share it by this name.

    Use what it returns in place of the value. Where tracing is off it is the value itself. So is a number, a text or a
    tuple while a program is traced: a warning says so.
    """
    if state.note is None and state.witness is None and not state.is_patched:
        return value
    if isinstance(value, NEVER_WRAPPED):
        _warn_of_unwatched(value, name)
        return cast(T, value)
    kind: Any = type(value)
    if across:
        name = Across(name)
    touch_at(name, MAKING, *place_of(frame_at(1)))
    is_taken_by_its_methods = kind is not set  # Others may be in C, and take what is in a set without them.
    if is_taken_by_its_methods and is_noted_by_type(kind) and sys.getrefcount(value) <= REFERENCES_OF_A_NEW_VALUE:
        return cast(T, noted(value, name))
    return cast(T, stand_in(value, name))


def _warn_of_unwatched(value: object, name: str) -> None:
    """Says, at the line of the program that calls `shared`, that no use of the value is noted."""
    warnings.warn(
        f"shared({name!r}) gives back the {type(value).__name__} as it is, and notes no use of it: "
        f"call touch({name!r}) where it is read, and touch({name!r}, write=True) where it is replaced",
        stacklevel=3,
    )
