"""Containers whose reads and writes are noted: of their own type, so that every library takes them.

A container that lies in a shared one, or in an attribute of a shared object, is part of that thing. It is noted too, if
nobody else holds it.
"""

from __future__ import annotations

import operator
import sys
from _thread import get_ident
from collections import Counter, OrderedDict, defaultdict, deque
from collections.abc import Callable, ItemsView, Iterator, KeysView, ValuesView
from typing import Any

from ..model.conflicts import READ, WRITE
from ..model.kinds import CHANGING_OF_TYPES, LOOKING_METHODS
from ..model.lines import state
from ..record.noting import touch_at
from ..model.frames import frame_at, is_internal, place_of
from ..model.stretches import STRETCHES

READS = LOOKING_METHODS.union(
    "__bool__ __deepcopy__ __radd__ buffer_info tounicode isatty readable seekable writable".split()
)
"""Methods that only look. Of a type of the library every other one writes."""
WRITES = CHANGING_OF_TYPES

_VIEWS = frozenset({"keys", "values", "items"})
_INSERTED = {"__setitem__": 1, "append": 0, "appendleft": 0, "insert": 1, "setdefault": 1}
"""Methods that take one element in, and which of their arguments it is."""

CONTAINERS = (dict, list, set, bytearray, deque)

_MADE_AGAIN: dict[type, Callable[[type, Any], Any]] = {
    dict: lambda kind, value: kind(value),
    list: lambda kind, value: kind(value),
    set: lambda kind, value: kind(value),
    bytearray: lambda kind, value: kind(value),
    OrderedDict: lambda kind, value: kind(value),
    Counter: lambda kind, value: kind(value),
    deque: lambda kind, value: kind(value, value.maxlen),
    defaultdict: lambda kind, value: kind(value.default_factory, value),
}
"""How one of another type is made of a container."""


_OF_CONTAINERS = frozenset({"collections", "collections.abc", "_collections_abc", "heapq", "bisect", "copy"})
"""Modules in which methods of containers are written. Whoever calls those reads or writes."""


def note(name: str, kind: str) -> None:
    """Notes a touch at the line of the program that led here."""
    if state.note is None and state.witness is None:
        return
    frame = frame_at(2)
    while frame is not None and (frame.f_globals.get("__name__") in _OF_CONTAINERS or is_internal(frame)):
        frame = frame.f_back
    touch_at(name, kind, *place_of(frame))


# How many references a container has that nobody else holds. Later Pythons do not count those of variables, so none is
# taken there.


class _Probe(list[Any]):
    """Measures them as the methods below see them."""

    found = 0

    def append(self, *args: Any, **kwargs: Any) -> None:
        self.found = sys.getrefcount(args[0])

    def __setitem__(self, *args: Any, **kwargs: Any) -> None:
        self.found = sys.getrefcount(args[1])


def _probed(is_subscript: bool) -> int:
    probe = _Probe()
    if is_subscript:
        probe[0] = {}
    else:
        probe.append({})
    return probe.found


def _of_variable() -> int:
    made = dict[str, str]()
    return sys.getrefcount(made)


_COUNTS = sys.version_info < (3, 14)
OF_SUBSCRIPT = _probed(True) if _COUNTS else 0
OF_CALL = _probed(False) if _COUNTS else 0
OF_VARIABLE = _of_variable() if _COUNTS else 0


def is_noted(value: Any) -> bool:
    """Whether it is a container that notes what is done to it."""
    return type(value) in _all_noted and value._itc_name is not None


def is_noted_by_type(kind: type) -> bool:
    """Whether a container of exactly this type can be made to note what is done to it."""
    return kind in _MADE_AGAIN


def is_held_by(value: Any, references: int) -> bool:
    """Whether it is a container that has no more references than so many, as the caller would count them."""
    return _COUNTS and type(value) in _MADE_AGAIN and sys.getrefcount(value) <= references + 1


def noted(value: Any, name: str) -> Any:
    """A container that is equal to the value, and notes what is done to it. Its parts are noted too."""
    base: Any = type(value)
    made = _MADE_AGAIN[base](_noted_type(base), value)
    if isinstance(made, dict):
        for key in list(dict.keys(made)):
            part = dict.__getitem__(made, key)
            if is_held_by(part, OF_VARIABLE + 2):
                dict.__setitem__(made, key, noted(part, name))
    elif isinstance(made, (list, deque)):
        for index in range(base.__len__(made)):
            part = base.__getitem__(made, index)
            if is_held_by(part, OF_VARIABLE + 2):
                base.__setitem__(made, index, noted(part, name))
    made._itc_name = name
    return made


_noted_types: dict[type, type] = {}
_all_noted: set[type] = set()


def _noted_type(base: type) -> type:
    made = _noted_types.get(base)
    if made is None:
        names = [one for one in sorted(READS | WRITES) if is_method(base, one)]
        methods: dict[str, Any] = {one: _method(base, one) for one in names}
        methods["__reduce_ex__"] = lambda self, _: (_plain, (base, _MADE_AGAIN[base](base, self)))
        methods["__hash__"] = None
        if base is defaultdict:
            methods["__missing__"] = _missing
        if base in (list, deque, bytearray):
            methods["__radd__"] = _added_to
        named = {"_itc_name": None, "__module__": base.__module__}
        made = _noted_types[base] = type(base.__name__, (base,), {**methods, **named})
        _all_noted.add(made)
    return made


def _plain(base: type, value: Any) -> Any:
    """A copy is of the program's type, and is no part of what is shared."""
    return value


def _added_to(self: Any, other: Any) -> Any:
    """What stands to the right of a plain list is asked before the list."""
    if not isinstance(other, (list, deque, bytes, bytearray)):
        return NotImplemented
    note(self._itc_name, READ)
    kind: Any = type(other)
    return kind.__add__(other, self)


def is_method(base: type, name: str) -> bool:
    return callable(getattr(base, name, None)) and getattr(base, name) is not getattr(object, name, None)


def _method(base: type, name: str) -> Callable[..., Any]:
    if name in _INSERTED:
        made = _inserting(base, name, _INSERTED[name])
    elif name in _VIEWS:
        made = _viewing(base, name)
    elif name in ("__iter__", "__reversed__"):
        made = _iterating(base, name)
    else:
        made = _touching(base, name)
    made.__name__ = name
    return made


def _touching(base: type, name: str) -> Callable[..., Any]:
    original, kind = getattr(base, name), WRITE if name in WRITES else READ

    def method(self: Any, *args: Any, **kwargs: Any) -> Any:
        if self._itc_name is not None:
            note(self._itc_name, kind)
        return original(self, *args, **kwargs)

    return method


def _inserting(base: type, name: str, index: int) -> Callable[..., Any]:
    original = getattr(base, name)
    references = OF_SUBSCRIPT if name == "__setitem__" else OF_CALL

    def method(self: Any, *args: Any, **kwargs: Any) -> Any:
        if self._itc_name is not None:
            note(self._itc_name, WRITE)
            if len(args) > index and type(args[index]) in _MADE_AGAIN and sys.getrefcount(args[index]) <= references:
                args = (*args[:index], noted(args[index], self._itc_name), *args[index + 1:])
        return original(self, *args, **kwargs)

    return method


def _missing(self: Any, key: Any) -> Any:
    if self.default_factory is None:
        raise KeyError(key)
    made = self.default_factory()
    if self._itc_name is not None:
        note(self._itc_name, WRITE)
        if is_held_by(made, OF_VARIABLE):
            made = noted(made, self._itc_name)
    dict.__setitem__(self, key, made)
    return made


# To iterate is to read at each step.


class Iteration:
    """An iterator that notes a read at each step, as far as the task has done something else meanwhile."""

    __slots__ = ("_steps", "_name", "_stretch")

    def __init__(self, steps: Iterator[Any], name: str, stretch: Any) -> None:
        self._steps = steps
        self._name = name
        self._stretch = stretch

    def __iter__(self) -> Iteration:
        return self

    def __next__(self) -> Any:
        if state.note is not None or state.witness is not None:
            stretch = STRETCHES.get(get_ident())
            if stretch is None or stretch is not self._stretch:
                note(self._name, READ)
                self._stretch = STRETCHES.get(get_ident())
        return next(self._steps)

    def __length_hint__(self) -> int:
        return operator.length_hint(self._steps)

    def __reduce__(self) -> Any:
        return self._steps.__reduce__()


def iteration(steps: Iterator[Any], name: str) -> Iteration:
    """One that begins where a read was noted just now."""
    return Iteration(steps, name, STRETCHES.get(get_ident()))


def _iterating(base: type, name: str) -> Callable[..., Any]:
    original = getattr(base, name)

    def method(self: Any) -> Any:
        if self._itc_name is None:
            return original(self)
        note(self._itc_name, READ)
        return iteration(original(self), self._itc_name)

    return method


class _View:
    """What a view of a noted dict has in common."""

    __slots__ = ()
    _mapping: Any
    _view: Any
    _name: str
    _stretch: Any

    def __init__(self, view: Any, name: str) -> None:
        self._mapping = self._view = view
        self._name = name  # type: ignore[misc]  # It is a slot of each view, whose other base has slots of its own.
        self._stretch = STRETCHES.get(get_ident())

    def __len__(self) -> int:
        note(self._name, READ)
        return len(self._view)

    def __iter__(self) -> Iterator[Any]:
        return Iteration(iter(self._view), self._name, self._stretch)

    def __reversed__(self) -> Iterator[Any]:
        return Iteration(reversed(self._view), self._name, self._stretch)

    def __contains__(self, one: object) -> bool:
        note(self._name, READ)
        return one in self._view

    def __repr__(self) -> str:
        note(self._name, READ)
        return repr(self._view)

    @property
    def mapping(self) -> Any:
        return self._view.mapping


class _Keys(_View, KeysView[Any]):
    __slots__ = ("_view", "_name", "_stretch")


class _Values(_View, ValuesView[Any]):
    __slots__ = ("_view", "_name", "_stretch")


class _Items(_View, ItemsView[Any, Any]):
    __slots__ = ("_view", "_name", "_stretch")


_VIEW_TYPES: dict[str, Any] = {"keys": _Keys, "values": _Values, "items": _Items}


def view_of(view: Any, method: str, name: str) -> Any:
    """The view of a dict, of which each use is noted."""
    return _VIEW_TYPES[method](view, name)


def _viewing(base: type, name: str) -> Callable[..., Any]:
    original = getattr(base, name)

    def method(self: Any) -> Any:
        if self._itc_name is None:
            return original(self)
        note(self._itc_name, READ)
        return view_of(original(self), name, self._itc_name)

    return method
