"""Tells of what a watched program hands to an `ExitStack` or to `weakref.finalize`, where these call it: methods of
containers, and locks."""

from __future__ import annotations

import contextlib
import weakref
from typing import Any

from ..record.noting import without_own_frame
from .base import Patches, like, named_like
from .handed_on import Place, called, handed_at
from .locks import is_entered_by_stack

_stack: Any = vars(contextlib)["_BaseExitStack"]
_CREATE = "_create_cb_wrapper"

_places: dict[Any, Place] = {}
"""Where the program has handed on what each finalizer calls, if it is such a method."""


def put(patches: Patches) -> None:
    plain = getattr(_stack, _CREATE)
    patches.put(_stack, _CREATE, staticmethod(like(plain, _create(plain))))
    patches.wrap(_stack, "enter_context", _enter_context)
    patches.wrap(weakref.finalize, "__init__", _begin_finalizer)
    patches.wrap(weakref.finalize, "__call__", _call_finalizer)
    patches.wrap(weakref.finalize, "detach", _detach_finalizer)


def _create(original: Any) -> Any:
    def create(callback: Any, /, *words: Any, **named: Any) -> Any:
        place = handed_at(callback, 2)
        leave = original(callback, *words, **named)
        if place is None:
            return leave

        def leave_by_method(*fault: Any) -> Any:
            called(callback, words, place)
            return leave(*fault)

        return named_like(leave, leave_by_method)

    return create


def _enter_context(original: Any) -> Any:
    def enter_context(self: Any, cm: Any) -> Any:
        is_entered_by_stack(cm)
        try:
            return original(self, cm)
        except BaseException as fault:
            without_own_frame(fault)
            raise

    return enter_context


def _begin_finalizer(original: Any) -> Any:
    def __init__(self: Any, one: Any, function: Any, /, *words: Any, **named: Any) -> None:
        original(self, one, function, *words, **named)
        place = handed_at(function)
        if place is not None:
            _places[self] = place

    return __init__


def _call_finalizer(original: Any) -> Any:
    def __call__(self: Any, _: Any = None) -> Any:
        place = _places.pop(self, None) if _places else None
        known = None if place is None else self._registry.get(self)
        if known is not None:
            called(known.func, known.args, place)
        return original(self, _)

    return __call__


def _detach_finalizer(original: Any) -> Any:
    def detach(self: Any) -> Any:
        _places.pop(self, None)
        return original(self)

    return detach
