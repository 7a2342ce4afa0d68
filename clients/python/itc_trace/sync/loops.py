"""Traces asyncio once the program imports it."""

from __future__ import annotations

from types import ModuleType
from typing import Any

from ..record.loops import know_asyncio
from .base import Patches
from .later import once_imported

_quick: Any = None
"""The helper in C, once there is one."""
_is_put = False


def put(patches: Patches) -> None:
    once_imported("asyncio", lambda module: _put(patches, module))


def _put(patches: Patches, module: ModuleType) -> None:
    global _is_put
    from . import asynchronous

    know_asyncio(module)
    asynchronous.put(patches)
    _is_put = True
    if _quick is not None:
        asynchronous.be_quick(_quick)


def be_quick(quick: Any) -> None:
    """From here on the turns of loops begin in C."""
    global _quick
    _quick = quick
    if _is_put:
        from . import asynchronous

        asynchronous.be_quick(quick)
