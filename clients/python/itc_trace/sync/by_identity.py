"""What is known of objects of other libraries that take no attribute, as long as these live."""

from __future__ import annotations

import weakref
from typing import Any, Generic, TypeVar

Value = TypeVar("Value")


class ByIdentity(Generic[Value]):
    """A value for each object that has weak references, whatever it says of its equality."""

    def __init__(self) -> None:
        self._known: dict[int, tuple[weakref.ref[Any], Value]] = {}

    def __bool__(self) -> bool:
        return bool(self._known)

    def get(self, one: Any) -> Value | None:
        found = self._known.get(id(one))
        return found[1] if found is not None else None

    def put(self, one: Any, value: Value) -> None:
        number, known = id(one), self._known
        known[number] = weakref.ref(one, lambda _: known.pop(number, None)), value
