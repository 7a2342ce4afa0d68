"""Notes what a method of a container does that the program has handed on,
and a function that looks at what it is given."""

from __future__ import annotations

from builtins import id, type
from typing import Any

from ..model.conflicts import REWRITE
from ..sync.handed_on import ATTRGETTER, Method, Place, Watcher, watch_with
from ..model.frames import line_of
from . import hooks
from .decisions import value_of_field
from .finder import FILES
from ..model.kinds import CHANGED_ARGUMENT, KEYED, METHODS, READERS, SHOWING, STEPPERS, depth_of, known_function
from .learned import KEYWORDS, STORED_FIELDS
from .places import NAMES_OF_HANDED, Access, new_site
from .rewrite import OF_ATTRIBUTES, OF_OBJECT

_OF_BUILTINS = "builtins."
_FIELDS = {**{f"{_OF_BUILTINS}{name}": kinds for name, kinds in OF_ATTRIBUTES.items()}, ATTRGETTER: "r", **OF_OBJECT}
_ALL_FIELDS = f"{_OF_BUILTINS}vars"
_WHOLE = {f"{_OF_BUILTINS}{name}": kinds for name, kinds in READERS.items() if name not in STEPPERS}

_sites: dict[tuple[int, int, str], tuple[int, object]] = {}
"""The sites of places, by code, instruction and method.

A code is kept, else another one might come to stand at its place.
"""


def _touch(method: Method, place: Place) -> None:
    name, words = method.name, method.words
    if not hooks.are_put():
        return
    known = known_function(name) if "." in name else None
    if known is not None:
        hooks.hook_before_whole(method.container, _site_of(place, name, "whole", known, depth_of(name)))
    elif name == _ALL_FIELDS:
        hooks.hook_before_fields(method.container)
    elif name in _FIELDS:
        _touch_field(method, _site_of(place, name, "field", _FIELDS[name]))
    elif name in _WHOLE:
        depth = SHOWING.get(name.removeprefix(_OF_BUILTINS), "")
        hooks.hook_before_whole(method.container, _site_of(place, name, "whole", _WHOLE[name], depth))
    elif name in METHODS:
        site = _site_of(place, name, "base", "", name)
        if name in KEYED and words:
            hooks.hook_before_element(method.container, words[0], site)
        else:
            hooks.hook_before_method(method.container, site)


def _touch_field(method: Method, site: int) -> None:
    """A field by its name, which may be one of several parts for `attrgetter`."""
    name: Any = method.words[0] if method.words else None
    one = method.container
    for part in name.split(".") if type(name) is str and method.name == ATTRGETTER else (name,):
        if one is not None:
            hooks.hook_before_named_attribute(one, part, site)
            one = value_of_field(one, part) if type(part) is str else None


def _site_of(place: Place, name: str, what: str, kinds: str, of_site: str = "") -> int:
    code, instruction = place
    key = id(code), instruction, name
    known = _sites.get(key)
    if known is None:
        line = line_of(code, instruction)
        access = Access(what, kinds, of_site, NAMES_OF_HANDED.get((code.co_filename, line, name), ""), "")
        known = _sites[key] = new_site(code.co_filename, line, code.co_qualname, access), code
    return known[0]


_KEEPING_FIRST = frozenset(("functools.reduce",))
"""Functions that call their first argument."""


def _arguments(name: str) -> slice | None:
    kinds = known_function(name)
    if kinds is None or name.startswith("operator.") or name.partition(".")[0] == "itertools":
        return None
    changed = CHANGED_ARGUMENT.get(name, 0)
    return slice(changed, changed + 1) if kinds == REWRITE else slice(1 if name in _KEEPING_FIRST else 0, None)


def begin() -> None:
    """From here on what the program hands on is looked into."""
    names = METHODS | {_ALL_FIELDS, *_FIELDS, *_WHOLE}
    watch_with(Watcher(_touch, FILES, names, _arguments, lambda: KEYWORDS in STORED_FIELDS))
