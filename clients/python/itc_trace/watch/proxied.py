"""What the methods of a manager's tables, lists and the like touch, by the table of the library's own containers.

An element is a thing by its key. What cannot be told by a text that is the same in all processes is named in the last
line.
"""

from __future__ import annotations

from enum import Enum
from typing import Any

from ..model.digests import blake2b
from ..model.conflicts import ADDITION, ITERATION, LENGTH, LOOKUP, READ, REMOVAL, REPLACEMENT, REWRITE, WRITE
from ..record.following import pass_over
from ..sync.managed import Ask, KeptData, touch_with
from ..sync.values import user
from .keys import value_of
from ..model.kinds import DICT, KEYED, LIST, WHOLE
from .late import ADDED, CHANGING, FOUND, LOOKING
from .things import LONGEST_KEY

Found = list[tuple[str, str]]
"""What is touched, an element or all of it if that is empty, and how."""
_ALL = ""
_METHODS = {"#GETVALUE": "__repr__"}
"""What asks for a copy of all looks at all that a text of it does."""
_READING = frozenset(("get", "__repr__", "#GETVALUE"))
_OF_FIELDS = {"__getattribute__": READ, "__setattr__": WRITE, "__delattr__": WRITE}
_SIMPLE = (str, bytes, type(None))
_NUMBERS = (bool, int, float)


def _touches(data: KeptData, ask: Ask, name: str, words: tuple[Any, ...]) -> Found:
    kind = data.told.kind
    if kind == "Value":
        return [(_ALL, READ if name in _READING else WRITE)]
    if kind == "Namespace":
        return _of_fields(name, words)
    name, family = _METHODS.get(name, name), DICT if kind == "dict" else LIST
    if name in WHOLE[family]:
        return [(_ALL, WHOLE[family][name])]
    kinds = KEYED.get(name, {}).get(family, "")
    if not kinds or not words:
        return []
    return _of_key(ask, name, words[0], kinds) if family == DICT else _of_index(ask, words[0], kinds)


def _of_fields(name: str, words: tuple[Any, ...]) -> Found:
    if name not in _OF_FIELDS:
        pass_over("the text of a Namespace", user())
        return []
    return [(f".{words[0]}", _OF_FIELDS[name])]


def _of_key(ask: Ask, name: str, key: Any, kinds: str) -> Found:
    """A key of a table. Whether it is there is asked before, where it matters."""
    is_there = kinds == "r" or bool(ask("__contains__", (key,), {}))
    if name == "setdefault":
        kinds = FOUND if is_there else ADDED
    elif kinds == "d" and not is_there:
        kinds = "r"
    change = ADDITION if kinds == "d" or not is_there else REPLACEMENT
    found = [(_ALL, LOOKUP)] if kinds in LOOKING else []
    found += [(_ALL, change)] if kinds in CHANGING else []
    text = _text_of(key)
    if text is None:
        pass_over(f"keys of type {type(key).__name__}", user())
        return found
    return [*found, (f"[{text}]", {"r": READ, ADDED: ADDITION, FOUND: LOOKUP}.get(kinds, WRITE))]


def _of_index(ask: Ask, key: Any, kinds: str) -> Found:
    """An index of a list. One from the end depends on the length."""
    if kinds == "c" or type(key) is not int:
        return [(_ALL, ITERATION if kinds in LOOKING else REWRITE)]
    if kinds == "d":
        return [(_ALL, REMOVAL)]
    found = [(_ALL, LENGTH)] if key < 0 else []
    place = key if key >= 0 else key + int(ask("__len__", (), {}))
    found.append((_ALL, LOOKUP if kinds == "r" else REPLACEMENT))
    return [*found, (f"[{place}]", READ if kinds == "r" else WRITE)]


def _text_of(key: Any) -> str | None:
    """A text that is the same for equal keys in all processes, and another one for others."""
    if isinstance(key, Enum):
        return f"{type(key).__qualname__}.{key.name}"
    text = _text_of_value(value_of(key))
    return None if text is None else text if len(text) <= LONGEST_KEY else f"{text[:LONGEST_KEY]}..{_digest_of(text)}"


def _text_of_value(value: Any) -> str | None:
    if type(value) in _SIMPLE:
        return repr(value)
    if type(value) in _NUMBERS:
        return repr(int(value) if type(value) is not float or value.is_integer() else value)
    if type(value) is not tuple:
        return None
    texts = [_text_of_value(part) for part in value]
    return None if None in texts else f"({', '.join(map(str, texts))})"


def _digest_of(text: str) -> str:
    """Tells two long texts apart of which the beginning is the same."""
    return blake2b(text.encode("utf-8", "surrogatepass"), digest_size=4).hexdigest()


def begin() -> None:
    """From here on what is kept by the servers of managers is touched by these rules."""
    touch_with(_touches)
