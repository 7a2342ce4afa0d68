"""The lines of a doctest get hooks, too. `doctest` compiles each of them by itself, and runs it by `exec`."""

from __future__ import annotations

import __future__

import ast
import builtins
import contextlib
import doctest
from collections.abc import Iterator
from types import CodeType
from typing import Any

from .depth import at_any_depth
from .finder import Selection, tell_unwatched
from .rewrite import rewritten

_FEATURES = [(getattr(__future__, name).compiler_flag, name) for name in __future__.all_feature_names]
_SHOWN = '__import__("sys").displayhook'


@contextlib.contextmanager
def watched(test: doctest.DocTest, selection: Selection) -> Iterator[None]:
    """Within the block the examples of this test have hooks."""
    names: Any = vars(doctest)
    module = str(test.globs.get("__name__", ""))
    sources = [example.source for example in test.examples]

    def compile_example(source: str, filename: str, mode: str, flags: int = 0, dont_inherit: bool = False) -> CodeType:
        plain: CodeType = builtins.compile(source, filename, mode, flags, dont_inherit)
        number = next((number for number, one in enumerate(sources) if one is source), len(sources))

        def prepare(tree: ast.Module, _source: bytes, _file: str) -> None:
            before, behind = _never_run(sources[:number]), _never_run(sources[number + 1 :])
            tree.body = [*_features(flags), *before, *map(_shown, tree.body), *behind]
            ast.fix_missing_locations(tree)

        try:
            return at_any_depth(lambda: rewritten(source, filename, module, selection.has_import, prepare))
        except Exception as fault:  # The program's own line is to run, whatever the fault is.
            tell_unwatched(filename, fault)
            return plain

    names["compile"] = compile_example
    try:
        yield
    finally:
        del names["compile"]


def _shown(statement: ast.stmt) -> ast.stmt:
    """An expression that stands by itself is shown, as at a prompt."""
    if not isinstance(statement, ast.Expr):
        return statement
    show = ast.parse(_SHOWN, mode="eval").body
    return ast.copy_location(ast.Expr(ast.copy_location(ast.Call(show, [statement.value], []), statement)), statement)


def _features(flags: int) -> list[ast.stmt]:
    """What the module has from `__future__`, of which a doctest is compiled as a part."""
    names = [ast.alias(name) for flag, name in _FEATURES if flags & flag]
    return [ast.ImportFrom("__future__", names, 0, lineno=1, col_offset=0)] if names else []


def _never_run(sources: list[str]) -> list[ast.stmt]:
    """The other lines, so that it is known what they bind and share. No instruction is made of them."""
    lines: list[ast.stmt] = []
    for source in sources:
        with contextlib.suppress(SyntaxError):
            lines += [one for one in ast.parse(source).body if not _is_feature(one)]
    return [ast.If(ast.Constant(False), lines, [], lineno=1, col_offset=0)] if lines else []


def _is_feature(statement: ast.stmt) -> bool:
    return isinstance(statement, ast.ImportFrom) and statement.module == "__future__"
