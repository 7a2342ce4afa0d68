"""What a text shows of each thing that it is formatted with, as `"{0.name} {rows[3]}"`: fields and elements of it,
or all."""

from __future__ import annotations

from _string import formatter_field_name_split, formatter_parser  # type: ignore[import]  # No stub has it.
from collections.abc import Iterator
from functools import lru_cache

Path = tuple[tuple[bool, str | int], ...]
"""The steps from what is given to what is shown: whether each is a field, and its name, else the key of an element."""

MOST_KNOWN = 512


@lru_cache(MOST_KNOWN)
def field_paths(template: str, name: int | str) -> tuple[Path, ...]:
    """What the text shows of the argument at this place, or of this name. Nothing, if it is no template."""
    try:
        return tuple(dict.fromkeys(path for first, path in _paths(template) if first == name))
    except ValueError:
        return ()


def _paths(template: str) -> Iterator[tuple[int | str, Path]]:
    """The argument and the path of each field, in their order. Those without a number are counted."""
    count = 0
    for field in _fields(template):
        first, rest = formatter_field_name_split(field)
        path = tuple((bool(is_field), key) for is_field, key in rest)
        if first == "":
            first, count = count, count + 1
        yield first, path


def _fields(template: str) -> Iterator[str]:
    for _, field, specification, _ in formatter_parser(template):
        if field is not None:
            yield field
            yield from _fields(specification or "")
