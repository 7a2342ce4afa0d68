"""Sees what `heapq` does to a shared list: it is written in C, and goes past the list's own methods."""

from __future__ import annotations

import heapq
from typing import Any

from ..model.conflicts import WRITE
from ..model.kinds import CHANGING_HEAPS
from ..marked.containers import is_noted, note
from ..marked.stand_ins import StandIn, name_of, value_of
from .base import Patches, named_like


def put(patches: Patches) -> None:
    for name in CHANGING_HEAPS:
        original = getattr(heapq, name)
        patches.replace(heapq, name, named_like(original, _changing(original)))


def _changing(original: Any) -> Any:
    def change(heap: Any, *items: Any) -> Any:
        if is_noted(heap):
            note(heap._itc_name, WRITE)
        elif issubclass(type(heap), StandIn):
            note(name_of(heap), WRITE)
            heap = value_of(heap)
        return original(heap, *items)

    return change
