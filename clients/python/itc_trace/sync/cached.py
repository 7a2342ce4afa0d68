"""Traces `functools.cached_property`: whoever reads what was computed comes after who computed it."""

from __future__ import annotations

import functools
import weakref
from typing import Any

from ..model.lines import CACHED, Token, state
from ..record.noting import mark, take
from .base import Patches


def put(patches: Patches) -> None:
    kind: Any = functools.cached_property
    patches.wrap(kind, "__get__", _get)
    patches.put(kind, "__set__", _set)
    patches.put(kind, "__delete__", _delete)


class _Computed:
    """The places where the values of one property were computed, by the identity of their objects."""

    def __init__(self) -> None:
        self._places: dict[int, tuple[weakref.ref[Any], Token | None]] = {}

    def add(self, instance: Any, token: Token | None) -> None:
        key, places = id(instance), self._places
        try:
            places[key] = weakref.ref(instance, lambda _: places.pop(key, None)), token
        except TypeError:
            pass  # It cannot be told when such an object is gone, and another one may come to stand at its place.

    def of(self, instance: Any) -> Token | None:
        kept = self._places.get(id(instance))
        return kept[1] if kept is not None and kept[0]() is instance else None


class _Computing:
    """Stands for a property while the library computes its value:
    nobody else reads the value before its place is known."""

    __slots__ = ("_itc_property",)

    def __init__(self, one: Any) -> None:
        self._itc_property = one

    def __getattr__(self, name: str) -> Any:
        return getattr(self._itc_property, name)

    def func(self, instance: Any) -> Any:
        value = self._itc_property.func(instance)
        if state.lines > 1:
            _computed(self._itc_property).add(instance, mark(CACHED))
        return value


def _computed(one: Any) -> _Computed:
    computed: _Computed | None = one.__dict__.get("_itc_computed")
    if computed is None:
        computed = one.__dict__.setdefault("_itc_computed", _Computed())
    return computed


def _get(original: Any) -> Any:
    def __get__(self: Any, instance: Any, owner: Any = None) -> Any:
        if instance is None or state.note is None:
            return original(self, instance, owner)
        value = original(_Computing(self), instance, owner)
        take(_computed(self).of(instance))
        return value

    return __get__


def _set(self: Any, instance: Any, value: Any) -> None:
    try:
        names = instance.__dict__
    except AttributeError:
        raise AttributeError(f"{type(instance).__name__!r} object attribute {self.attrname!r} is read-only") from None
    names[self.attrname] = value


def _delete(self: Any, instance: Any) -> None:
    try:
        del instance.__dict__[self.attrname]
    except (AttributeError, KeyError):
        raise AttributeError(self.attrname) from None
