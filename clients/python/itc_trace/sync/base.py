"""Puts traced methods in the place of the library's own."""

from __future__ import annotations

import sys
from collections.abc import Callable
from types import BuiltinFunctionType, CodeType, FunctionType
from typing import Any
from weakref import WeakValueDictionary

from ..model.frames import INTERNAL

STAND_INS: WeakValueDictionary[int, CodeType] = WeakValueDictionary()
"""The code of each function that stands in the place of another one, by its identity."""


class Patches:
    """How attributes of the library are replaced."""

    def put(self, owner: Any, name: str, value: Any) -> None:
        """Gives the class or module another attribute."""
        setattr(owner, name, value)

    def wrap(self, owner: Any, name: str, make: Callable[[Any], Any]) -> None:
        """Puts what `make` gives of the owner's own function in its place. It looks like that function."""
        original = vars(owner)[name]
        self.put(owner, name, like(original, make(original)))

    def replace(self, module: Any, name: str, value: Any) -> None:
        """Puts the value in the module, and wherever the program has imported the old one by its name."""
        old = getattr(module, name)
        self.put(module, name, value)
        found_in = sys.modules.get(value.__module__, module) if type(value) in (FunctionType, Builtin) else None
        if found_in is not None and vars(found_in).get(value.__qualname__) is not value:
            value.__module__ = module.__name__  # There it is found by whoever unpickles it.
        for other in list(sys.modules.values()):
            names = getattr(other, "__dict__", None)
            if type(names) is dict and other is not module and not is_ours(other):
                for found in [key for key, one in names.items() if one is old]:
                    self.put(other, found, value)


def is_ours(module: Any) -> bool:
    """Whether it is a module that goes on with the library's own locks, queues and tasks."""
    name = getattr(module, "__name__", "")
    if not isinstance(name, str):
        return True
    return name.partition(".")[0] in INTERNAL or name.startswith("_") and not name.startswith("__main__")


class Builtin(staticmethod):  # type: ignore[type-arg]
    """A function in the place of one that is built in. As an attribute of a class it is no method, either."""

    __class__ = property(lambda self: BuiltinFunctionType)  # type: ignore[assignment]

    def __repr__(self) -> str:
        return f"<built-in function {self.__name__}>"

    def __reduce__(self) -> str:
        found = vars(sys.modules.get(self.__module__, sys)).get(self.__name__)
        if found is not self:
            self.__module__ = "os"  # What stands there is of a module of the system's own, which keeps its function.
        return self.__name__


_builtin: Any = BuiltinFunctionType
Builtin.__name__ = Builtin.__qualname__ = _builtin.__name__
Builtin.__module__ = BuiltinFunctionType.__module__


WHOLE = 8
WITHOUT_COLUMNS = 0x80 | 13 << 3
"""An entry of a table of lines is of so many units at most.

The kind of one that stays in its line, and knows no columns.
"""


def _stand_in_file(original: FunctionType, made: FunctionType) -> None:
    """All of the function stands at the first line of the other one:
    so a traceback and an inspection lead to the library."""
    code, units = made.__code__, len(made.__code__.co_code) // 2
    sizes = [WHOLE] * (units // WHOLE) + [units % WHOLE] * bool(units % WHOLE)
    lines = b"".join(bytes((WITHOUT_COLUMNS | size - 1, 0)) for size in sizes)
    plain = original.__code__
    made.__code__ = code.replace(
        co_filename=plain.co_filename, co_name=plain.co_name, co_firstlineno=plain.co_firstlineno, co_linetable=lines,
    )


def like(original: Any, made: Any) -> Any:
    """Has a function stand for one of the library, which is found where that one is."""
    if type(original) is FunctionType and type(made) is FunctionType:
        _stand_in_file(original, made)
    if type(made) is FunctionType:
        STAND_INS[id(made.__code__)] = made.__code__
        made.__globals__["__tracebackhide__"] = True  # So pytest leaves it out, too.
    if isinstance(original, BuiltinFunctionType) and type(made) is FunctionType:
        made.__name__, made.__qualname__ = original.__name__, original.__qualname__
        made.__wrapped__ = original  # type: ignore[attr-defined]
        made = Builtin(made)
    return named_like(original, made)


def named_like(original: Any, made: Any) -> Any:
    """Gives a function the name and the texts of another."""
    if type(made) is FunctionType:
        made.__annotations__ = dict(getattr(original, "__annotations__", {}))
    for name in ("__name__", "__qualname__", "__doc__", "__module__", "__text_signature__"):
        try:
            setattr(made, name, getattr(original, name))
        except AttributeError:
            pass
    try:
        made.__wrapped__ = original
    except AttributeError:
        pass
    return made


def name_as(kind: type, name: str, module: str) -> None:
    """Gives a class the name of the one that it stands for, also where an error names a method."""
    kind.__name__ = kind.__qualname__ = name
    kind.__module__ = module
    for method in vars(kind).values():
        if type(method) is FunctionType:
            method.__qualname__ = f"{name}.{method.__name__}"
            method.__annotations__ = {}
