"""Puts patches in place of modules that the program has not imported, once it imports them."""

from __future__ import annotations

import importlib.util
import sys
from collections.abc import Callable
from types import ModuleType
from typing import Any

_waiting: dict[str, list[Callable[[ModuleType], None]]] = {}


def once_imported(name: str, put: Callable[[ModuleType], None]) -> None:
    """Calls it with the module: now, if the program has it, else when the program imports it."""
    module = sys.modules.get(name)
    if module is not None:
        put(module)
        return
    _waiting.setdefault(name, []).append(put)
    if _finder not in sys.meta_path:
        sys.meta_path.insert(0, _finder)


class _Finder:
    """Finds a module that is waited for as the others do, and has it patched as soon as it was executed."""

    def find_spec(self, name: str, path: Any = None, target: Any = None) -> Any:
        waiting = _waiting.pop(name, None)
        if waiting is None:
            return None
        spec = importlib.util.find_spec(name)
        loader: Any = None if spec is None else spec.loader
        if hasattr(loader, "exec_module"):
            loader.exec_module = _then(loader.exec_module, waiting)
        return spec


def _then(
    execute: Callable[[ModuleType], None], waiting: list[Callable[[ModuleType], None]],
) -> Callable[[ModuleType], None]:
    def exec_module(module: ModuleType) -> None:
        execute(module)
        for put in waiting:
            put(module)

    return exec_module


_finder: Any = _Finder()
