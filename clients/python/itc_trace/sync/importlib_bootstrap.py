"""Traces the import lock: whoever imports a module comes after whoever executed it.

The file is named so that Python passes its frames over, as those of `importlib._bootstrap`, where a warning in the
module is to show the line that imports it.
"""

from __future__ import annotations

import builtins
import importlib
import sys
from typing import Any

from ..model.lines import IMPORT, Token, state
from ..record.noting import mark, take
from .base import Patches, like

_bootstrap: Any = vars(importlib)["_bootstrap"]
_executed: dict[str, Token] = {}


def put(patches: Patches) -> None:
    _executed.clear()
    patches.wrap(_bootstrap._ModuleLock, "release", _release)
    patches.put(builtins, "__import__", like(builtins.__import__, _import(builtins.__import__)))
    patches.replace(importlib, "import_module", like(importlib.import_module, _import_module(importlib.import_module)))


def _release(original: Any) -> Any:
    """Before the module's lock is released for the first time, the module has just been executed."""

    def release(self: Any) -> None:
        if state.note is not None and state.lines > 1 and self.name not in _executed and _is_worth(self.name):
            token = mark(IMPORT)
            if token is not None and self.name in sys.modules:
                _executed[self.name] = token
        original(self)

    return release


def _is_worth(name: str) -> bool:
    """Whether the module may touch what the program shares. Those of the library do not."""
    return name.partition(".")[0] not in sys.stdlib_module_names


def _import(original: Any) -> Any:
    def __import__(name: str, globals: Any = None, locals: Any = None, fromlist: Any = (), level: int = 0) -> Any:
        try:
            module = original(name, globals, locals, fromlist, level)
        except BaseException as error:
            _pass_over(error)
            raise
        if _executed and state.note is not None:
            full = name if not level else _bootstrap._resolve_name(name, _bootstrap._calc___package__(globals), level)
            _take_all(full, fromlist)
        return module

    return __import__


def _pass_over(error: BaseException) -> None:
    """Leaves the frame of this package out of the traceback. To raise the error again does not bring it back."""
    if error.__traceback__ is not None:
        error.__traceback__ = error.__traceback__.tb_next


def _import_module(original: Any) -> Any:
    def import_module(name: str, package: str | None = None) -> Any:
        try:
            module = original(name, package)
        except BaseException as error:
            _pass_over(error)
            raise
        if _executed and state.note is not None:
            _take_all(module.__name__, ())
        return module

    return import_module


def _take_all(name: str, parts: Any) -> None:
    """From now on the current task comes after the module was executed, and its packages,
    and its parts that are modules."""
    package, _, _ = name.rpartition(".")
    if package:
        _take_all(package, ())
    _take(name)
    for part in parts or ():
        _take(f"{name}.{part}")


def _take(name: str) -> None:
    if name in _bootstrap._module_locks:
        _bootstrap._lock_unlock_module(name)  # It was executed, and whoever did so is about to say so.
    take(_executed.get(name))
