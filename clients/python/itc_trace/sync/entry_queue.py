"""Traces what threads have a loop of trio call. The loop's tasks themselves are one line: the thread's."""

from __future__ import annotations

from types import ModuleType
from typing import Any

from ..model.lines import CALL, state
from ..record.noting import mark, take
from .base import Patches, named_like
from .later import once_imported


def put(patches: Patches) -> None:
    once_imported("trio._core._entry_queue", lambda module: _put_queue(patches, module))


def _put_queue(patches: Patches, module: ModuleType) -> None:
    patches.wrap(vars(module)["EntryQueue"], "run_sync_soon", _run_sync_soon)


def _run_sync_soon(original: Any) -> Any:
    def run_sync_soon(self: Any, sync_fn: Any, *args: Any, idempotent: bool = False) -> Any:
        if state.note is None or idempotent:  # Equal calls are one, and whoever is told of it wakes up alone.
            return original(self, sync_fn, *args, idempotent=idempotent)
        token = mark(CALL)

        def called(*args: Any) -> Any:
            take(token)
            return sync_fn(*args)

        return original(self, named_like(sync_fn, called), *args)

    return run_sync_soon
