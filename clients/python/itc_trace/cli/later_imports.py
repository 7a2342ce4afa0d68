"""Leaves to the program when modules of the library make their loggers, and what they ask for at the end.

The package imports such modules before the program does. They are taken out of the table of modules until the program
imports them, too. Else `logging.config` would find their loggers, and silence them.
"""

from __future__ import annotations

import atexit
import logging
import sys
from importlib.abc import Loader
from importlib.machinery import ModuleSpec
from types import ModuleType
from typing import Any

from ..own_path import KNOWN_BEFORE

LOGGING = "logging"
IMPORTED = {LOGGING: (), "concurrent.futures": (LOGGING,), "asyncio": ("concurrent.futures",)}
"""The modules, and which of these each imports. All but the first make loggers of their names."""
_hidden: dict[str, dict[str, ModuleType]] = {}
"""Each of them, with the modules below it."""
_old: dict[str, Any] = {}
"""The loggers that they have made."""


class Later(Loader):
    """Finds what is imported already."""

    def __init__(self) -> None:
        self._specs: dict[str, ModuleSpec | None] = {}

    def find_spec(self, name: str, path: object = None, target: object = None) -> ModuleSpec | None:
        if name not in _hidden:
            return None
        module = _hidden[name][name]
        spec = ModuleSpec(name, self, origin=module.__file__)
        spec.submodule_search_locations = list(module.__path__)
        return spec

    def create_module(self, spec: ModuleSpec) -> ModuleType | None:
        module = _hidden[spec.name][spec.name]
        self._specs[spec.name] = module.__spec__
        return module

    def exec_module(self, module: ModuleType) -> None:
        module.__spec__ = self._specs.pop(module.__name__)
        _show(module.__name__)


def hide() -> None:
    """From here on the program runs."""
    table = logging.root.manager.loggerDict
    for name in IMPORTED:
        if name not in sys.modules or name in KNOWN_BEFORE:
            continue
        if name == LOGGING:
            atexit.unregister(logging.shutdown)
        elif name in table:
            _old[name] = table.pop(name)
        _hidden[name] = {one: sys.modules[one] for one in list(sys.modules) if f"{one}.".startswith(f"{name}.")}
        for one in _hidden[name]:
            del sys.modules[one]
    if _old and not any([isinstance(one, logging.Logger) for one in table.values()]):
        table.clear()
    if _hidden:
        sys.meta_path.insert(0, Later())


def _show(name: str) -> None:
    """The module does what it does as it is imported: the program may have made its logger, or the class of that."""
    for one in IMPORTED[name]:
        if one in _hidden:
            _show(one)
    modules = _hidden.pop(name)
    sys.modules.update(modules)
    if name == LOGGING:
        atexit.register(logging.shutdown)
    elif name in _old:
        old, logger = _old.pop(name), logging.getLogger(name)
        for module in modules.values():
            for found in [key for key, value in vars(module).items() if value is old]:
                setattr(module, found, logger)
