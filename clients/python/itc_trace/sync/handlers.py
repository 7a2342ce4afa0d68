"""Traces the locks of the program's own handlers of `logging`: their `emit` runs while the lock is held."""

from __future__ import annotations

import logging
from typing import Any

from ..model.frames import frame_at
from .base import Patches
from .locks import traced_rlock


def put(patches: Patches) -> None:
    patches.wrap(logging.Handler, "createLock", _create_lock)


def _create_lock(original: Any) -> Any:
    def createLock(self: Any) -> None:
        original(self)
        if type(self).__module__.partition(".")[0] != "logging":
            self.lock = traced_rlock(frame_at(1))

    return createLock
