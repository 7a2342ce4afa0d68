"""Nodes of a syntax tree that are made for hooks, with the places of those that stood there."""

from __future__ import annotations

import ast
from collections.abc import Callable
from types import CodeType
from typing import Any, TypeVar

from .helper import quick

Made = TypeVar("Made", bound=ast.AST)
Place = dict[str, Any]
Call, Constant, If, Name = ast.Call, ast.Constant, ast.If, ast.Name
LOAD = ast.Load()
VALUES = frozenset((int, str, tuple))
"""The types of what becomes a constant."""
_new = ast.AST.__new__
KINDS = tuple([one for one in vars(ast).values() if isinstance(one, type) and issubclass(one, ast.AST)])
"""The kinds of nodes."""


def new_node(kind: type[Made], parts: dict[str, Any]) -> Made:
    """A node with these parts, which has its place among them."""
    made = _new(kind)
    made.__dict__ = parts
    return made


def _copied(node: Made) -> Made:
    """A node of its own with the same parts."""
    made = _new(type(node))
    made.__dict__ = node.__dict__.copy()
    return made


def with_ends(tree: ast.Module) -> None:
    """Has each node that has a place tell where it ends, even if that is not known."""
    for node in ast.walk(tree):
        names = node.__dict__
        if "lineno" in names:
            names.setdefault("end_lineno", None)
            names.setdefault("end_col_offset", None)


def place_of(node: Any) -> Place:
    """Where a node stands. The end may not be known."""
    place = node.__dict__
    return {
        "lineno": place["lineno"], "col_offset": place["col_offset"], "end_lineno": place["end_lineno"],
        "end_col_offset": place["end_col_offset"],
    }


def _name_at(node: Any, name: str) -> ast.Name:
    """A variable that is read at the place of a node."""
    place = node.__dict__
    made = _new(Name)
    made.__dict__ = {
        "id": name, "ctx": LOAD, "lineno": place["lineno"], "col_offset": place["col_offset"],
        "end_lineno": place["end_lineno"], "end_col_offset": place["end_col_offset"],
    }
    return made


def _call_of(name: str, words: tuple[Any, ...], node: Any) -> ast.Call:
    """A call of a function by its name, at the place of a node. It is given nodes, and values that become constants.

    A source has more of these calls than of anything else, so each part is made at once.
    """
    place = node.__dict__
    line, column = place["lineno"], place["col_offset"]
    last_line, last_column = place["end_lineno"], place["end_col_offset"]
    given = []
    for word in words:
        if type(word) in VALUES:
            constant = _new(Constant)
            constant.__dict__ = {
                "value": word, "lineno": line, "col_offset": column, "end_lineno": last_line,
                "end_col_offset": last_column,
            }
            word = constant
        given.append(word)
    function = _new(Name)
    function.__dict__ = {
        "id": name, "ctx": LOAD, "lineno": line, "col_offset": column, "end_lineno": last_line,
        "end_col_offset": last_column,
    }
    made = _new(Call)
    made.__dict__ = {
        "func": function, "args": given, "keywords": [], "lineno": line, "col_offset": column,
        "end_lineno": last_line, "end_col_offset": last_column,
    }
    return made


def _as_statement(expression: ast.expr, node: Any) -> ast.Expr:
    return new_node(ast.Expr, {"value": expression, **place_of(node)})


def _chosen(test: ast.expr, body: list[ast.stmt], otherwise: list[ast.stmt], node: Any) -> ast.If:
    """The statements of which one list runs, at the place of a node."""
    place = node.__dict__
    made = _new(If)
    made.__dict__ = {
        "test": test, "body": body, "orelse": otherwise, "lineno": place["lineno"], "col_offset": place["col_offset"],
        "end_lineno": place["end_lineno"], "end_col_offset": place["end_col_offset"],
    }
    return made


def at(node: Any, made: Made) -> Made:
    """A node with the place of another one, unless it has one of its own."""
    names = made.__dict__
    if "lineno" not in names:
        place = node.__dict__
        names["lineno"], names["col_offset"] = place["lineno"], place["col_offset"]
        names["end_lineno"], names["end_col_offset"] = place["end_lineno"], place["end_col_offset"]
    return made


def compiled(tree: ast.Module, file: str) -> CodeType:
    try:
        return _compiled(tree, file)
    except TypeError:  # A node has no place.
        return _compiled(ast.fix_missing_locations(tree), file)


def _compiled(tree: ast.Module, file: str) -> CodeType:
    words = (tree, file, "exec", 0, True)
    code: CodeType = compile(*words) if quick is None else quick.call_with_quick_nodes(KINDS, compile, *words)
    return code


name_at: Callable[[Any, str], ast.Name] = _name_at if quick is None else quick.name_at
call_of: Callable[[str, tuple[Any, ...], Any], ast.Call] = _call_of if quick is None else quick.call_of
as_statement: Callable[[ast.expr, Any], ast.Expr] = _as_statement if quick is None else quick.as_statement
chosen: Callable[[ast.expr, list[ast.stmt], list[ast.stmt], Any], ast.If] = _chosen if quick is None else quick.chosen
copied: Callable[[Made], Made] = _copied if quick is None else quick.copied
