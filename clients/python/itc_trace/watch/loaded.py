"""Gives the functions of modules that were imported already the code with hooks, in place."""

from __future__ import annotations

import ast
import gc
import os
import sys
import warnings
from collections.abc import Callable, Iterator
from types import CodeType, FunctionType, ModuleType

from . import begun_code
from .decisions import WATCHED, forget_decisions
from .depth import at_any_depth
from .finder import FILES, Selection, tell_unwatched
from .making import kept_code, new_code
from .rewrite import rewritten

Prepare = Callable[[ast.Module, bytes, str], None]
"""What somebody else does to the syntax tree of a module before it is compiled."""

_done: set[str] = set()


def rewrite_loaded(selection: Selection, prepare: Prepare | None = None) -> None:
    """From here on the functions of watched modules note what they touch, wherever they are referred to."""
    files: dict[str, ModuleType] = {}
    for name, module in list(sys.modules.items()):
        file = getattr(module, "__file__", None)
        if isinstance(file, str) and name not in WATCHED and name not in _done and selection.has_file(name, file):
            files[file] = module
            _done.add(name)
    codes = {file: _codes_of(file, module, selection, prepare) for file, module in files.items()}
    if codes:
        forget_decisions()
        for one in gc.get_objects():
            if type(one) is FunctionType and one.__code__.co_filename in codes:
                _replace(one, codes[one.__code__.co_filename])
        begun_code.define_with_hooks(codes, mark_of, _fits)


Mark = tuple[str, int, tuple[str, ...], tuple[int, int]]


def mark_of(code: CodeType) -> Mark:
    """What a function's code with hooks and its plain one have in common, and no other function of the file."""
    ends = [(line, column) for _, line, _, column in code.co_positions() if line is not None and column is not None]
    return code.co_qualname, code.co_firstlineno, code.co_freevars, max(ends, default=(0, 0))


def _codes_of(file: str, module: ModuleType, selection: Selection, prepare: Prepare | None) -> dict[Mark, CodeType]:
    name = module.__name__
    try:
        with open(file, "rb") as source:
            made = _made(source.read(), file, name, selection, prepare)
    except Exception as fault:  # What prepares the tree is somebody else's.
        tell_unwatched(file, fault)
        return {}
    WATCHED.add(name)
    FILES.add(file)
    return code_by_mark(made)


def code_by_mark(module: CodeType) -> dict[Mark, CodeType]:
    """All code in that of a module which is told apart from the rest of it."""
    codes: dict[Mark, CodeType | None] = {}
    for code in _all_codes(module):
        mark = mark_of(code)
        codes[mark] = None if mark in codes else code
    return {mark: code for mark, code in codes.items() if code is not None}


def _made(text: bytes, file: str, name: str, selection: Selection, prepare: Prepare | None) -> CodeType:
    if prepare is None:
        return kept_code(text, file, name, selection.has_import) or new_code(text, file, name, selection.has_import)
    with warnings.catch_warnings():
        warnings.simplefilter("ignore")
        return at_any_depth(lambda: rewritten(text, file, name, selection.has_import, prepare=prepare))


def _all_codes(code: CodeType) -> Iterator[CodeType]:
    for one in code.co_consts:
        if isinstance(one, CodeType):
            yield one
            yield from _all_codes(one)


def _replace(function: FunctionType, codes: dict[Mark, CodeType]) -> None:
    """Gives a function its code with hooks. One that is not told apart from another is left as it is."""
    made = codes.get(mark_of(function.__code__))
    if made is not None and _fits(made, function.__code__):
        function.__code__ = made


def _fits(made: CodeType, plain: CodeType) -> bool:
    return made.co_argcount == plain.co_argcount and made.co_varnames == plain.co_varnames


def folder_of_main() -> str | None:
    """Where the program's own modules are, if it was started by a file."""
    file = getattr(sys.modules.get("__main__"), "__file__", None)
    return os.path.dirname(os.path.realpath(file)) if isinstance(file, str) else None
