"""The lines at which tasks may be held.

Their hooks are called by other names, so all other lines cost what they did.
"""

from __future__ import annotations

import ast
from collections.abc import Iterable
from typing import Any

from ..model.file_names import name_of_file

PREFIX_OF_HELD = "held_"
"""In front of the name of a hook that may hold its task."""
_LINES: dict[str, set[int]] = {}
"""The chosen lines of each file, by the name that it is told by."""


def choose(places: Iterable[str]) -> None:
    """From here on modules are rewritten so that tasks may be held at these lines, as `shop.py:7`."""
    for place in places:
        file, _, line = place.rpartition(":")
        if line.isdigit():
            _LINES.setdefault(file, set()).add(int(line))


def has_lines(file: str) -> bool:
    """Whether some of the file's lines are chosen: then no other run may have its code."""
    return name_of_file(file) in _LINES


def rename_hooks(tree: ast.Module, file: str, prefix: str) -> None:
    """Has the hooks of the file's chosen lines called by the names of those that may hold.

    Those of a class's body stay: the namespace of the class may ask for each name.
    """
    lines = _LINES.get(name_of_file(file))
    todo: list[tuple[Any, bool]] = [(tree, False)] if lines else []
    while todo:
        node, is_in_class = todo.pop()
        if type(node) is ast.Call and not is_in_class:
            name = node.func.id if type(node.func) is ast.Name else ""
            last = node.end_lineno or node.lineno
            if name.startswith(prefix) and lines and any(node.lineno <= line <= last for line in lines):
                node.func.id = f"{prefix}{PREFIX_OF_HELD}{name[len(prefix):]}"  # type: ignore[attr-defined]
        body = getattr(node, "body", ()) if type(node) in (ast.FunctionDef, ast.AsyncFunctionDef) else ()
        todo += [(one, False) for one in body]
        within = is_in_class or type(node) is ast.ClassDef
        inside = set(map(id, body))
        todo += [(one, within) for one in ast.iter_child_nodes(node) if id(one) not in inside]
