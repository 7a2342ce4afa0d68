"""Traces each `SharedMemory` of `multiprocessing`: its bytes are things across processes, and so is its name.

A program touches the bytes by views of memory, which are of a type that nobody can change. So the hooks of watched
modules tell of each view that they see. A view that goes where no hook is earns a star.
"""

from __future__ import annotations

import ctypes
import itertools
import os
import struct
import weakref
from collections.abc import Callable, Iterable
from types import CodeType, FrameType, ModuleType
from typing import Any, NamedTuple

from ..model import byte_ranges
from ..model.conflicts import READ, WRITE
from ..model.frames import frame_at, place_of
from ..model.lines import state
from ..model.memory_uses import OF_STRUCT, is_followed
from ..model.stretches import SharedThing
from ..model.verdict import PassedOver
from ..record import following
from ..record.noting import lost, touch_at
from .base import Patches, named_like
from .later import once_imported
from .shared_lists import OF_LISTS, keep_label, label_of
from .values import is_making, user

_MODULE = "multiprocessing.shared_memory"
KIND = "SharedMemory"
_OF_BLOCKS = "block"
HANDED_ON = "a view of SharedMemory as it is handed on"
found: dict[PassedOver, None] = {}
"""Where the program got such views, in their order."""
_OF_HOOKS = "_itc_on"
"""The name by which code with hooks asks whether they are on."""
MOST_APART = 4096
"""So many items of a view that do not lie side by side are things each."""
Place = tuple[CodeType | None, int]


class Block(NamedTuple):
    """Memory that is followed."""

    label: str
    """Where it was made."""
    address: int
    size: int


_blocks: dict[int, tuple[weakref.ref[Any], Block]] = {}
"""By the identity of what maps it."""
_opened: dict[str, itertools.count[int]] = {}
AT_FIRST_BLOCK: list[Callable[[], None]] = []
"""What is called once a process has the first block: from then on views of memory may be things."""
WITH_OTHERS: list[Callable[[], None]] = []
"""What is called once a process has a block beside other processes: what its one task touches may be touched there."""


def put(patches: Patches) -> None:
    once_imported(_MODULE, lambda module: _put_blocks(patches, module))


def _put_blocks(patches: Patches, module: ModuleType) -> None:
    block = vars(module)[KIND]
    patches.wrap(block, "__init__", _opening)
    patches.wrap(block, "close", _close)
    patches.wrap(block, "unlink", _unlink)
    patches.put(block, "buf", _watched_memory(vars(block)["buf"]))
    for name in OF_STRUCT:
        original = getattr(struct, name)
        patches.replace(struct, name, named_like(original, _of_struct(original, name == "pack_into")))


# Blocks


def _opening(original: Any) -> Any:
    def __init__(self: Any, name: Any = None, create: bool = False, size: int = 0, **named: Any) -> None:
        original(self, name, create, size, **named)
        if not is_making():
            _follow(self, bool(create))

    return __init__


def _follow(block: Any, is_made: bool) -> None:
    name = block.name
    if is_made:
        keep_label(_OF_BLOCKS, name, following.frame_of_start(2))
    elif label_of(OF_LISTS, name):
        following.is_not_followed("the memory of a ShareableList")
        return
    label = label_of(_OF_BLOCKS, name)
    if not label:
        following.tell_of_unseen(f"{KIND} that nobody traced has made was used at {_place_of_user()}")
        return
    block._itc_label, block._itc_opening = label, _opening_named(_place_of_user())
    memory = block._mmap
    _keep(memory, Block(label, _address_of(memory)[0], len(memory)))
    following.follow_memory(name)
    _touch_name(label, WRITE if is_made else READ)


def _place_of_user() -> str:
    return following.place_of_start(2)


def _opening_named(place: str) -> str:
    number = next(_opened.setdefault(place, itertools.count(1)))
    name = f"{KIND}.buf, opened at {place}"
    return name if number == 1 else f"{name}, number {number}"


def _keep(memory: Any, block: Block) -> None:
    key = id(memory)

    def gone(reference: weakref.ref[Any]) -> None:
        if _blocks.get(key, (None,))[0] is reference:
            del _blocks[key]

    is_first = not _blocks
    _blocks[key] = weakref.ref(memory, gone), block
    for tell in [*(AT_FIRST_BLOCK if is_first else ()), *(WITH_OTHERS if following.has_others() else ())]:
        tell()


def _touch_name(label: str, kind: str) -> None:
    """Whoever makes a block or unlinks it changes what is found by its name."""
    if _is_noted():
        touch_at(SharedThing(f"the name of {KIND}, made at {label}"), kind, *place_of(user()))


def _is_noted() -> bool:
    return state.note is not None or state.witness is not None


def _close(original: Any) -> Any:
    def close(self: Any) -> None:
        if not _is_by_module():
            _touch_opening(self, WRITE)
        original(self)

    return close


def _unlink(original: Any) -> Any:
    def unlink(self: Any) -> None:
        label = getattr(self, "_itc_label", None)
        if label is not None:
            _touch_name(label, WRITE)
        original(self)

    return unlink


def _touch_opening(block: Any, kind: str) -> None:
    """A block is this process's own until it is closed."""
    opening = getattr(block, "_itc_opening", None)
    if opening is not None and _is_noted():
        touch_at(opening, kind, *place_of(user()))


def _is_by_module() -> bool:
    caller = frame_at(2)
    return caller is not None and caller.f_globals.get("__name__") == _MODULE


def _watched_memory(plain: Any) -> property:
    def get(self: Any) -> Any:
        caller = frame_at(1)
        if caller is not None and caller.f_globals.get("__name__") != _MODULE:
            if getattr(self, "_itc_is_of_list", False):
                following.is_not_followed("the memory of a ShareableList")
            elif not _is_followed(self) or not _is_seen(caller):
                _tell_of_view(caller)
            _touch_opening(self, READ)
        return plain.__get__(self)

    return property(get, doc=plain.__doc__)


def _is_followed(block: Any) -> bool:
    """Whether it was made while the process was traced, and is known."""
    return getattr(block, "_itc_label", None) is not None


def _tell_of_view(frame: FrameType) -> None:
    """Tells of a view that goes where no hook is."""
    found[PassedOver(HANDED_ON, f"{os.path.basename(frame.f_code.co_filename)}:{frame.f_lineno}")] = None
    following.pass_over(HANDED_ON, frame)


def _is_seen(caller: FrameType) -> bool:
    """Whether hooks see what is done with the view that an instruction of the program gets."""
    module = caller.f_globals.get("__name__")
    try:
        return _OF_HOOKS in caller.f_code.co_names and is_followed(caller.f_code, caller.f_lasti, module)
    except Exception as fault:
        lost(fault)
        return False


# Views of memory


class _Buffer(ctypes.Structure):
    """What the language tells of a view, as its header of C has it."""

    _fields_ = [
        ("address", ctypes.c_void_p), ("owner", ctypes.py_object), ("length", ctypes.c_ssize_t),
        ("item", ctypes.c_ssize_t), ("is_read_only", ctypes.c_int), ("dimensions", ctypes.c_int),
        ("format", ctypes.c_char_p), ("shape", ctypes.c_void_p), ("strides", ctypes.c_void_p),
        ("further", ctypes.c_void_p), ("inside", ctypes.c_void_p),
    ]


_ALL_OF_IT = 0x11C
"""The request for a view of any form, also of one that cannot be written."""


def _address_of(view: Any) -> tuple[int, int]:
    """Where the first item lies, and how many bytes there are."""
    buffer = _Buffer()
    ctypes.pythonapi.PyObject_GetBuffer(ctypes.py_object(view), ctypes.byref(buffer), _ALL_OF_IT)
    address, length = buffer.address or 0, buffer.length
    ctypes.pythonapi.PyBuffer_Release(ctypes.byref(buffer))
    return address, length


def are_there() -> bool:
    """Whether this process has blocks."""
    return bool(_blocks)


def block_of(view: memoryview) -> Block | None:
    """The block whose bytes a view shows. None if it is not followed."""
    if not _blocks:
        return None
    try:
        memory = view.obj
    except ValueError:
        return None  # It was released.
    reference, block = _blocks.get(id(memory), (None, None))
    return block if reference is not None and reference() is memory else None


def spans_of(view: memoryview, block: Block, key: Any = None) -> list[tuple[int, int]] | None:
    """The bytes that a view shows, or one that is taken of it by an index or a slice: each span by its ends.

    None, if it is not known which they are.
    """
    if view.ndim != 1 or view.strides is None:
        return None
    if key is None:
        places = range(len(view))
    elif type(key) is int:
        places = range(len(view))[key:key + 1 or None]
    elif type(key) is slice:
        places = range(len(view))[key]
    else:
        return None
    step, first = view.strides[0], _address_of(view)[0] - block.address
    if places.step * step == view.itemsize:
        return [(first + places.start * step, first + places.stop * step)] if places else []
    if len(places) > MOST_APART:
        return None
    return [(first + place * step, first + place * step + view.itemsize) for place in places]


def touch(block: Block, spans: Iterable[tuple[int, int]], is_change: bool, place: Place) -> None:
    """Notes a touch of these bytes, at a place of the program."""
    for first, end in spans:
        for element, kind in byte_ranges.touches(first, end, block.size, is_change):
            touch_at(SharedThing(f"{KIND}{element}, made at {block.label}"), kind, *place)


def _of_struct(original: Any, is_change: bool) -> Any:
    def function(form: Any, buffer: Any, /, *words: Any, **named: Any) -> Any:
        told = original(form, buffer, *words, **named)
        block = block_of(buffer) if type(buffer) is memoryview and _is_noted() else None
        if block is not None:
            offset = words[0] if words else named.get("offset", 0)
            _touch_struct(block, buffer, offset, struct.calcsize(form), is_change)
        return told

    return function


def _touch_struct(block: Block, view: memoryview, offset: Any, size: int, is_change: bool) -> None:
    if type(offset) is not int or not view.c_contiguous:
        frame = user()
        if frame is not None:
            _tell_of_view(frame)
        return
    address, length = _address_of(view)
    first = address - block.address + (offset if offset >= 0 else offset + length)
    touch(block, [(first, first + size)], is_change, place_of(user()))
