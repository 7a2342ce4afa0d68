"""Replaces an item of a tuple where it lies: the interpreter has that tuple, and Python has no call for it."""

from __future__ import annotations

import functools
import importlib
from typing import Any


def put_item(items: tuple[Any, ...], place: int, new: object) -> bool:
    """Gives whether it did. It changes nothing if tuples do not lie in memory as is known."""
    ctypes = c_types()
    if ctypes is None:
        return False
    old = items[place]
    slot = ctypes.c_void_p.from_address(id(items) + tuple.__basicsize__ + place * ctypes.sizeof(ctypes.c_void_p))
    if slot.value != id(old):
        return False
    ctypes.pythonapi.Py_IncRef(ctypes.py_object(new))
    slot.value = id(new)
    ctypes.pythonapi.Py_DecRef(ctypes.py_object(old))
    return True


@functools.cache
def c_types() -> Any:
    """The module of that name, if there is one."""
    try:
        return importlib.import_module("ctypes")
    except ImportError:  # An interpreter that was built without it.
        return None
