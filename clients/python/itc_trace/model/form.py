"""Whether a value has the form that its type says, which nobody has looked at where it was read from a file."""

from __future__ import annotations

import types
from collections.abc import Iterator
from functools import cache
from typing import Any, Union, get_args, get_origin, get_type_hints


def has_form(value: object, form: Any) -> bool:
    """Whether it is of this type, with all that it has inside. A truth is no number."""
    kind, inside = get_origin(form), get_args(form)
    if kind in (Union, types.UnionType):
        return any(has_form(value, one) for one in inside)
    if kind is not None:
        part = inside[0] if kind is tuple else inside[-1]
        return isinstance(value, kind) and all(has_form(one, part) for one in _parts(value))
    if isinstance(value, tuple) or hasattr(value, "__dataclass_fields__"):
        return type(value) is form and all(has_form(getattr(value, name), hint) for name, hint in _fields(form).items())
    return type(value) is form


def _parts(value: Any) -> Iterator[object]:
    """The values of a table, and else what stands in a list or a tuple."""
    return iter(value.values() if isinstance(value, dict) else value)


@cache
def _fields(form: Any) -> dict[str, Any]:
    """Each field of a class with its type."""
    return get_type_hints(form)
