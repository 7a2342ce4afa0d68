"""Methods of containers that a watched program hands on, as `Thread(target=items.append)`: who calls them has no hooks.

Whoever is about to call such a method says so here. The touch is told with the line that handed the method on.
"""

from __future__ import annotations

import builtins
import functools
import operator
import types
from collections.abc import Callable, Iterator
from contextvars import Context
from types import CodeType, FrameType
from typing import Any, NamedTuple

from ..record.noting import lost, without_own_frame
from ..model.frames import frame_at, is_internal

BOUND = (types.BuiltinMethodType, types.MethodWrapperType)
UNBOUND = (types.MethodDescriptorType, types.WrapperDescriptorType)
NAMED = frozenset((*BOUND, *UNBOUND))
GETTERS = (operator.itemgetter, operator.attrgetter, operator.methodcaller)
OF_LIBRARY = frozenset((types.FunctionType, types.MethodType, types.BuiltinFunctionType))
HANDED = frozenset((*NAMED, *GETTERS, *OF_LIBRARY, functools.partial, type))
"""Types of what may stand for a method of a container, or for a function of the library that looks at one."""
OPERATORS = {
    **{name: f"__{name}__" for name in "setitem getitem delitem contains iadd imul ior iand isub ixor".split()},
    **{name: f"__{name}__" for name in "eq ne lt le gt ge add mul sub xor".split()},
    "concat": "__add__", "iconcat": "__iadd__", "countOf": "count", "indexOf": "index", "or_": "__or__",
    "and_": "__and__", "truth": "__len__", "not_": "__len__", "length_hint": "__len__",
}
"""Functions of `operator` that do what a method of their first argument does."""
CLASSES = (list, tuple, set, frozenset, dict, str, bool)
ATTRGETTER = "operator.attrgetter"
TEXTS = frozenset((str, bytes, int, float, complex, tuple, frozenset, range))
"""Types whose methods look at nothing that could change."""
MOST_WRAPPED = 8
_WRITTEN_IN_PYTHON = frozenset(("collections", "collections.abc", "weakref", "_weakrefset"))
"""Modules whose classes are containers with methods in Python."""
_LIBRARY = frozenset(("multiprocessing", "multiprocessing.pool", "multiprocessing.dummy"))

Place = tuple[CodeType, int]


class Method(NamedTuple):
    """A method of what may be a container, and the words that it is called with.

    A function has the name of its module before its own.
    """

    container: Any
    name: str
    words: tuple[Any, ...]


class Watcher(NamedTuple):
    """Who notes the touches of a watched program, the files that are watched, and the names of methods that touch."""

    touch: Callable[[Method, Place], None]
    files: set[str]
    names: frozenset[str]
    """Those of functions of the language are among them, as `builtins.setattr`."""
    arguments: Callable[[str], slice | None]
    """Which arguments a function of the library looks at or changes, by its name with that of its module.

    None, if it does so to none.
    """
    knows_keywords: Callable[[], bool]
    """Whether the program has the keywords of some `partial` by their name, and may change them."""


_watcher: Watcher | None = None


def watch_with(watcher: Watcher) -> None:
    global _watcher
    _watcher = watcher


def handed_at(function: Any, depth: int = 1) -> Place | None:
    """Where the program hands a method on. None if it is no such method, or if the program is not watched there."""
    if type(function) not in HANDED or not is_of_container(function):
        return None
    frame: FrameType | None = frame_at(depth + 1)
    while frame is not None and (is_internal(frame) or frame.f_globals.get("__name__") in _LIBRARY):
        frame = frame.f_back
    return None if frame is None else watched_place(frame.f_code, frame.f_lasti)


def is_of_container(function: Any) -> bool:
    """Whether it may be a method of a container, by its name alone."""
    inner = function
    for _ in range(MOST_WRAPPED):
        if type(inner) is not functools.partial:
            break
        if _has_keywords(inner):
            return True
        inner = inner.args[0] if _runs_another(inner.func) and inner.args else inner.func
    return _watcher is not None and (type(inner) in GETTERS or _touches(inner, _watcher.names))


def _has_keywords(function: Any) -> bool:
    """Whether a `partial` has keywords that the program may change. Whoever calls it looks at all of them."""
    return _watcher is not None and _watcher.knows_keywords() and type(function.keywords) is dict


def _touches(function: Any, names: frozenset[str]) -> bool:
    kind = type(function)
    if kind is type:
        return any(function is one for one in CLASSES)
    if kind in OF_LIBRARY and (_arguments_of(function) is not None or _name_in_class(function) in names):
        return True
    if kind not in NAMED:
        return False
    name = function.__name__
    if kind in UNBOUND:
        return name in names and function.__objclass__ not in TEXTS
    owner = function.__self__
    if type(owner) is types.ModuleType:
        return f"builtins.{name}" in names if owner is builtins else owner.__name__ == "_operator" and name in OPERATORS
    return name in names and type(owner) not in TEXTS


def _name_of(function: Any) -> str:
    """A function of the library by its name and that of its module, which may be the one in C that stands behind it."""
    inner = function.__func__ if type(function) is types.MethodType else function
    module, name = getattr(inner, "__module__", None), getattr(inner, "__name__", None)
    return f"{module.removeprefix('_')}.{name}" if type(module) is str and type(name) is str else ""


def _name_in_class(function: Any) -> str:
    """The name of a method of a container that is written in Python, as `Counter.total`."""
    inner = function.__func__ if type(function) is types.MethodType else function
    is_method = type(inner) is types.FunctionType and "." in inner.__qualname__ and "<" not in inner.__qualname__
    return str(inner.__name__) if is_method and inner.__module__ in _WRITTEN_IN_PYTHON else ""


def _arguments_of(function: Any) -> slice | None:
    if type(function) is types.MethodType and type(function.__func__) is not types.FunctionType:
        return None
    return None if _watcher is None else _watcher.arguments(_name_of(function))


def _runs_another(function: Any) -> bool:
    """Whether it runs what it is given in a context, as the jobs of `asyncio.to_thread` do."""
    is_of_context = type(function) is types.BuiltinMethodType and type(function.__self__) is Context
    return is_of_context and function.__name__ == "run"


def watched_place(code: CodeType | None, instruction: int) -> Place | None:
    """A place of the program. None if it is of a file that is not watched."""
    return None if code is None or _watcher is None or code.co_filename not in _watcher.files else (code, instruction)


def called(function: Any, words: tuple[Any, ...], place: Place | None) -> None:
    """The method that was handed on at this place is about to be called."""
    if place is None or _watcher is None or type(function) not in HANDED:
        return
    try:
        for method in _methods_of(function, words):
            _watcher.touch(method, place)
    except Exception as fault:
        lost(fault)


def _methods_of(function: Any, words: tuple[Any, ...]) -> Iterator[Method]:
    kind = type(function)
    for _ in range(MOST_WRAPPED):
        if kind is functools.partial:
            if _has_keywords(function):
                yield Method(function.keywords, "items", ())
            function, words = function.func, (*function.args, *words)
        elif _runs_another(function) and words:
            function, words = words[0], words[1:]
        else:
            break
        kind = type(function)
    arguments = _arguments_of(function) if kind in OF_LIBRARY else None
    if arguments is not None:
        yield from (Method(one, _name_of(function), ()) for one in words[arguments])
    elif kind is types.MethodType:
        yield Method(function.__self__, _name_in_class(function), words)
    elif words and kind is types.FunctionType:
        yield Method(words[0], _name_in_class(function), words[1:])
    elif kind in BOUND:
        yield from _bound(function.__self__, function.__name__, words)
    elif words and kind in UNBOUND:
        yield Method(words[0], function.__name__, words[1:])
    elif words and kind in GETTERS:
        yield from _of_getter(function, words[0])
    elif words and kind is type:
        yield Method(words[0], f"builtins.{function.__name__}", words[1:])


def _bound(owner: Any, name: str, words: tuple[Any, ...]) -> Iterator[Method]:
    if type(owner) is not types.ModuleType:
        yield Method(owner, name, words)
    elif words and owner is builtins:
        yield Method(words[0], f"builtins.{name}", words[1:])
    elif words and owner.__name__ == "_operator" and name in OPERATORS:
        yield Method(words[0], OPERATORS[name], words[1:])


def _of_getter(function: Any, one: Any) -> Iterator[Method]:
    """What `itemgetter`, `attrgetter` and `methodcaller` do. They tell what they were made of."""
    made, words = function.__reduce__()
    if type(function) is operator.itemgetter:
        yield from (Method(one, "__getitem__", (key,)) for key in words)
    elif type(function) is operator.attrgetter:
        yield from (Method(one, ATTRGETTER, (name,)) for name in words)
    elif type(made) is functools.partial:
        yield Method(one, made.args[0], words)
    else:
        yield Method(one, words[0], words[1:])


class Calling:
    """Stands for a method of a container while a function of the library calls it."""

    __slots__ = ("_function", "_place")

    def __init__(self, function: Any, place: Place) -> None:
        self._function = function
        self._place = place

    def __call__(self, *words: Any, **named: Any) -> Any:
        called(self._function, words, self._place)
        try:
            return self._function(*words, **named)
        except BaseException as fault:
            without_own_frame(fault)
            raise

    def __reduce__(self) -> Any:
        """Whoever copies it, or sends it to another process, does so with the function alone."""
        return functools.partial, (self._function,)
