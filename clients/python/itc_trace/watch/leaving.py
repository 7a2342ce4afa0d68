"""Has code that leaves the process by value leave without hooks, since who takes it may have none, or others.

What pickles a function by value, as cloudpickle does, reads its code. So it is given the code that the source is
compiled to.
"""

from __future__ import annotations

import marshal
import os
import sys
from collections.abc import Callable, Iterator
from importlib.util import find_spec
from sys import _getframe
from types import CodeType, ModuleType
from typing import Any

from ..model.frames import is_internal
from ..model.verdict import MOST_LISTED, Cause, PassedOver, Unseen
from ..sync.base import like
from . import passed_over
from .finder import FILES
from .loaded import code_by_mark, mark_of
from .rewrite import PREFIX

PICKLERS = frozenset(("cloudpickle", "cloudpickle_fast", "_dill"))
"""The last names of modules that pickle code by value. Other packages carry copies of them."""
TABLES = ("_dispatch_table", "dispatch_table", "dispatch")
FINDERS_OF_NAMES = {"dill.detect": "nestedglobals"}
"""Functions that give the names in a function's code, by the modules that have them."""
_MOST_WITHIN = 4

_plain: dict[str, dict[Any, CodeType]] = {}
_left: dict[str, None] = {}
"""What has left without hooks since tracing began, and where it is defined."""
_begun: list[str] = []


def plain_of(code: CodeType) -> CodeType:
    """The code without hooks. The same, if it has none, or if its source is no more what it was."""
    if code.co_filename not in FILES or not _has_hooks(code):
        return code
    made = _plain_codes(code.co_filename).get(mark_of(code), code)
    if made is not code:
        place = f"{os.path.basename(code.co_filename)}:{code.co_firstlineno}"
        passed_over.found[PassedOver(f"{code.co_name} where it runs by value", place)] = None
        _left[f"{code.co_name} at {place}"] = None
    return made


def unseen() -> list[Unseen]:
    """What has left may have run elsewhere, and nobody knows what it touched there."""
    if not _left:
        return []
    names = [*_left]
    more = f" and {len(names) - MOST_LISTED} more" if len(names) > MOST_LISTED else ""
    return [
        Unseen(Cause.CHILD, f"what left by value was not traced where it runs: {', '.join(names[:MOST_LISTED])}{more}")
    ]


def end() -> None:
    """What has left so far is no matter of what is traced next."""
    _left.clear()


def _has_hooks(code: CodeType) -> bool:
    if any([name.startswith(PREFIX) for name in code.co_names]):
        return True
    return any([_has_hooks(one) for one in code.co_consts if type(one) is CodeType])


def _plain_codes(file: str) -> dict[Any, CodeType]:
    known = _plain.get(file)
    if known is None:
        try:
            with open(file, "rb") as source:
                known = code_by_mark(compile(source.read(), file, "exec", dont_inherit=True))
        except (OSError, SyntaxError, ValueError):
            known = {}
        _plain[file] = known
    return known


def begin() -> None:
    """From here on code leaves plain: by `marshal`, and by the picklers that are imported, or will be."""
    if _begun:
        return
    _begun.append(marshal.__name__)
    for name in ("dumps", "dump"):
        setattr(marshal, name, like(getattr(marshal, name), _marshalling(getattr(marshal, name))))
    for found in list(sys.modules.values()):
        if type(found) is ModuleType and _is_pickler(found.__name__):
            _have_plain_sent(found)


def stand_first() -> None:
    """Such a module is looked after whoever else finds it: it may be watched itself."""
    if _finder in sys.meta_path:
        sys.meta_path.remove(_finder)
    sys.meta_path.insert(0, _finder)


def _marshalling(original: Callable[..., Any]) -> Callable[..., Any]:
    def marshalled(value: Any, *words: Any) -> Any:
        return original(value if is_internal(_getframe(1)) else _plain_within(value, _MOST_WITHIN), *words)

    return marshalled


def _plain_within(value: Any, most: int) -> Any:
    """The value, with plain code in it. What has no code in it is the same object."""
    if type(value) is CodeType:
        return plain_of(value)
    if most == 0 or type(value) not in (tuple, list, dict):
        return value
    parts = [*value.values()] if type(value) is dict else value
    made = [_plain_within(one, most - 1) for one in parts]
    if all([one is other for one, other in zip(made, parts)]):
        return value
    return dict(zip(value, made)) if type(value) is dict else type(value)(made)


def _is_pickler(name: Any) -> bool:
    return type(name) is str and (name.rpartition(".")[2] in PICKLERS or name in FINDERS_OF_NAMES)


def _have_plain_sent(module: ModuleType) -> None:
    """Has what such a module does for code be done for the plain one."""
    for table in _tables_of(module):
        reduce = table.get(CodeType)
        if reduce is not None and getattr(reduce, "__module__", None) != __name__:
            table[CodeType] = _of_plain(reduce)
    find = vars(module).get(FINDERS_OF_NAMES.get(module.__name__, ""))
    if find is not None:
        setattr(module, find.__name__, like(find, _without_hooks(find)))


def _without_hooks(find: Callable[..., Any]) -> Callable[..., Any]:
    def found(*words: Any, **named: Any) -> Any:
        return {name for name in find(*words, **named) if not name.startswith(PREFIX)}

    return found


def _tables_of(module: ModuleType) -> Iterator[dict[Any, Any]]:
    for kind in list(vars(module).values()):
        if isinstance(kind, type):
            yield from (vars(kind)[name] for name in TABLES if isinstance(vars(kind).get(name), dict))


def _of_plain(reduce: Callable[..., Any]) -> Callable[..., Any]:
    """It is given the code last, behind the pickler if that has no other way to it."""

    def reduce_plain(*words: Any) -> Any:
        return reduce(*words[:-1], plain_of(words[-1]))

    return reduce_plain


class _Finder:
    """Finds such a module as the others do, and looks after it as soon as it was executed."""

    def __init__(self) -> None:
        self._searched: set[str] = set()

    def find_spec(self, name: str, path: Any = None, target: Any = None) -> Any:
        if not _is_pickler(name) or name in self._searched:
            return None
        self._searched.add(name)
        try:
            spec = find_spec(name)
        finally:
            self._searched.discard(name)
        loader: Any = None if spec is None else spec.loader
        if hasattr(loader, "exec_module"):
            loader.exec_module = _then_plain(loader.exec_module)
        return spec


def _then_plain(execute: Callable[[ModuleType], None]) -> Callable[[ModuleType], None]:
    def exec_module(module: ModuleType) -> None:
        execute(module)
        _have_plain_sent(module)

    return exec_module


_finder: Any = _Finder()
