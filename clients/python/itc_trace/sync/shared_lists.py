"""Traces each `ShareableList` of `multiprocessing`: an element is a thing across processes.

What the program itself does to the memory of a list is not followed.
"""

from __future__ import annotations

import os
from types import FrameType, ModuleType
from typing import Any

from ..model.conflicts import READ, WRITE
from ..model.frames import place_of
from ..model.lines import state
from ..model.stretches import SharedThing
from ..record import following
from ..record.noting import touch_at
from ..record.shared_names import LONGEST_NAME
from .base import Patches
from .later import once_imported
from .values import MOST_ELEMENTS, making, user

_MODULE = "multiprocessing.shared_memory"
OF_LISTS = "list"
_labels: dict[str, str] = {}
"""Where this process has made what lies in shared memory, by what it is and the name of its memory."""
_counts: dict[str, int] = {}


def put(patches: Patches) -> None:
    once_imported(_MODULE, lambda module: _put_lists(patches, module))


def _put_lists(patches: Patches, module: ModuleType) -> None:
    kind = vars(module)["ShareableList"]
    patches.wrap(kind, "__init__", _making_of)
    patches.wrap(kind, "__getitem__", _get)
    patches.wrap(kind, "__setitem__", _set)
    patches.put(kind, "format", _watched_format(vars(kind)["format"]))


def _making_of(original: Any) -> Any:
    def __init__(self: Any, sequence: Any = None, *, name: Any = None) -> None:
        with making():
            original(self, sequence, name=name)
        memory = self.shm.name
        if self._list_len > MOST_ELEMENTS:
            following.is_not_followed("ShareableList")
            return
        if sequence is not None or name is None:
            keep_label(OF_LISTS, memory, following.frame_of_start(1))
        self.shm._itc_is_of_list = True
        self._itc_label = label_of(OF_LISTS, memory) or memory
        following.follow_memory(memory)

    return __init__


def keep_label(what: str, memory: str, frame: FrameType | None) -> None:
    """Keeps where something was made, for each process that gets it by the name of its memory."""
    tracer = state.tracer
    maker = "" if tracer is None or not tracer.prefix else f" by {tracer.prefix.rstrip('_')}"
    place = "?" if frame is None else f"{os.path.basename(frame.f_code.co_filename)}:{frame.f_lineno}{maker}"
    key, of_place = f"{what} {memory}", f"{what} {place}"
    number = _counts[of_place] = _counts.get(of_place, 0) + 1
    label = place if number == 1 else f"{place}, number {number}"
    if len(label) > LONGEST_NAME or not label.isascii():
        label = memory[:LONGEST_NAME]
    _labels[key] = label
    names = following.shared_names()
    slot = None if names is None else names.slot_of(key)
    if names is not None and slot is not None:
        names.put(slot, label)
    elif names is not None:
        _labels[key] = memory[:LONGEST_NAME]  # No other process would be told the place.


def label_of(what: str, memory: str) -> str:
    """Where it was made. Nothing, if nobody has said so."""
    key, names = f"{what} {memory}", following.shared_names()
    slot = None if names is None else names.slot_of(key)
    told = "" if names is None or slot is None else names.name_at(slot)
    return told or _labels.get(key, "")


def _get(original: Any) -> Any:
    def __getitem__(self: Any, position: Any) -> Any:
        found = original(self, position)
        _touch(self, position, READ)
        return found

    return __getitem__


def _set(original: Any) -> Any:
    def __setitem__(self: Any, position: Any, value: Any) -> None:
        original(self, position, value)
        _touch(self, position, WRITE)

    return __setitem__


def _touch(one: Any, position: int, kind: str) -> None:
    label = getattr(one, "_itc_label", None)
    if label is not None and (state.note is not None or state.witness is not None):
        number = range(one._list_len)[position]
        touch_at(SharedThing(f"ShareableList[{number}], made at {label}"), kind, *place_of(user()))


def _watched_format(plain: Any) -> property:
    def get(self: Any) -> Any:
        for position in range(self._list_len):
            _touch(self, position, READ)
        return plain.__get__(self)

    return property(get, doc=plain.__doc__)
