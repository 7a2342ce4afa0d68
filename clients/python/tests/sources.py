"""What the sources of the package do that few places may: reach into others, catch all faults,
and pass over a rule of types."""

from __future__ import annotations

import ast
import re
from collections.abc import Iterator
from pathlib import Path

PUBLIC = frozenset({"_fields", "_getframe", "_replace"})
"""Names that the library's own pages tell of, although they begin with an underscore."""
TELLING = frozenset({"lost", "failed", "tell_unwatched", "_give_up"})
"""Functions that are given a fault and tell of it: a touch is counted as lost, tracing ends,
or a module is named as not watched."""


def is_own(name: str) -> bool:
    return name.startswith("_") and not name.startswith("__")


def reached_into(name: str, path: Path, known: dict[str, Path]) -> Iterator[str]:
    """The names of another module of the package that begin with an underscore, and are used here."""
    tree = ast.parse(path.read_text(encoding="utf-8"))
    modules: set[str] = set()
    for node in ast.walk(tree):
        if isinstance(node, ast.ImportFrom) and node.level:
            base = _base_of(node, name, path)
            modules |= {one.asname or one.name for one in node.names if f"{base}.{one.name}".strip(".") in known}
            yield from (f"{path.name}:{node.lineno} imports {one.name}" for one in node.names if is_own(one.name))
    for node in ast.walk(tree):
        owner = node.value if isinstance(node, ast.Attribute) and is_own(node.attr) else None
        if isinstance(owner, ast.Name) and owner.id in modules:
            yield f"{path.name}:{owner.lineno} uses {ast.unparse(node)}"


def _base_of(node: ast.ImportFrom, name: str, path: Path) -> str:
    package = name.split(".") if path.name == "__init__.py" else name.split(".")[:-1]
    folders = [one for one in package if one]
    return ".".join(folders[: len(folders) - node.level + 1] + (node.module.split(".") if node.module else []))


def names_of_others(path: Path) -> set[str]:
    """The names with an underscore that a module uses, and neither has itself nor marks objects of the library by,
    as `_itc_line`."""
    nodes = list(ast.walk(ast.parse(path.read_text(encoding="utf-8"))))
    used = {one.attr for one in nodes if isinstance(one, ast.Attribute)}
    used |= {alias.name for one in nodes if isinstance(one, ast.ImportFrom) and not one.level for alias in one.names}
    return {one for one in used - _defined(nodes) - PUBLIC if is_own(one) and not one.startswith("_itc_")}


def _defined(nodes: list[ast.AST]) -> set[str]:
    """Names that a module gives: to functions, classes, variables, slots, and fields of `self` in a class."""
    names: set[str] = set()
    for one in nodes:
        if isinstance(one, (ast.FunctionDef, ast.AsyncFunctionDef, ast.ClassDef)):
            names.add(one.name)
        elif isinstance(one, ast.Name) and isinstance(one.ctx, ast.Store):
            names.add(one.id)
        elif isinstance(one, ast.Assign) and ast.unparse(one.targets[0]) == "__slots__":
            names |= set(ast.literal_eval(one.value))
        if isinstance(one, ast.ClassDef):
            names |= {
                part.attr for part in ast.walk(one) if isinstance(part, ast.Attribute) and _is_stored_in_self(part)
            }
    return names


def _is_stored_in_self(node: ast.Attribute) -> bool:
    return isinstance(node.ctx, ast.Store) and isinstance(node.value, ast.Name) and node.value.id == "self"


def swallowed(path: Path) -> list[str]:
    """The functions that catch every fault, and neither raise it again nor give it to a function that tells of it."""
    found: list[str] = []

    def visit(node: ast.AST, function: str) -> None:
        for one in ast.iter_child_nodes(node):
            if isinstance(one, ast.ExceptHandler) and _is_broad(one) and not _goes_on(one):
                found.append(function)
            visit(one, one.name if isinstance(one, (ast.FunctionDef, ast.AsyncFunctionDef)) else function)

    visit(ast.parse(path.read_text(encoding="utf-8")), "")
    return found


def _is_broad(handler: ast.ExceptHandler) -> bool:
    kinds = handler.type.elts if isinstance(handler.type, ast.Tuple) else [handler.type]
    return any(one is None or isinstance(one, ast.Name) and one.id in ("Exception", "BaseException") for one in kinds)


def _goes_on(handler: ast.ExceptHandler) -> bool:
    """Whether the fault is raised again at the end, or is given to a function that tells of it."""
    last = handler.body[-1]
    return isinstance(last, ast.Raise) and last.exc is None or any(_tells(one, handler.name) for one in handler.body)


def _tells(statement: ast.stmt, fault: str | None) -> bool:
    call = statement.value if isinstance(statement, ast.Expr) else None
    if not isinstance(call, ast.Call):
        return False
    name = ast.unparse(call.func).rpartition(".")[2]
    given = {part.id for word in call.args for part in ast.walk(word) if isinstance(part, ast.Name)}
    return name in TELLING and fault in given


def ignored(path: Path) -> list[str]:
    """The kinds of findings that lines of a module pass over, as `attr-defined`. An empty one stands for all kinds."""
    lines = path.read_text(encoding="utf-8").splitlines()
    return [kind for line in lines for kind in re.findall(r"# type: ignore(?:\[([a-z-]+)\])?", line)]


def long_lines(path: Path, width: int) -> list[int]:
    """The numbers of the lines that have more columns."""
    lines = path.read_text(encoding="utf-8").splitlines()
    return [number for number, line in enumerate(lines, 1) if len(line) > width]
