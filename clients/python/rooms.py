"""The map of the package: which folder is for what, and which folders and modules its imports lead to.

A folder depends on those above it alone, by imports of any kind: those of a module, those within functions, and those
for types.

Usage: rooms.py [--write]. It prints the map, or writes it into CONTRIBUTING.md.
"""

from __future__ import annotations

import ast
import sys
from collections.abc import Iterator
from pathlib import Path
from typing import NamedTuple

HERE = Path(__file__).resolve().parent
PACKAGE = HERE / "itc_trace"
PAGE = HERE / "CONTRIBUTING.md"
BEGIN, END = "<!-- made: rooms -->\n", "<!-- end -->\n"
STAND_ALONE = frozenset({"own_path", "session"})
"""Modules beside the folders that import nothing of the package. All other ones there may import anything."""
FOLDERS = ("model", "record", "marked", "sync", "watch", "processes", "analyse", "report", "api", "cli")
"""From the lowest one up."""


class Import(NamedTuple):
    """A module that imports another one of the package, and at which line."""

    module: str
    imported: str
    line: int


def modules() -> dict[str, Path]:
    """Each module of the package, by its name within it."""
    return {_name(path): path for path in sorted(PACKAGE.rglob("*.py"))}


def _name(path: Path) -> str:
    parts = path.relative_to(PACKAGE).with_suffix("").parts
    return ".".join(parts[:-1] if parts[-1] == "__init__" else parts)


def imports() -> list[Import]:
    """All imports of the package's modules by each other."""
    known = modules()
    found = ((name, one, line) for name, path in known.items() for one, line in _imported_by(name, path, known))
    return sorted({Import(name, one, line) for name, one, line in found if one != name})


def _imported_by(name: str, path: Path, known: dict[str, Path]) -> Iterator[tuple[str, int]]:
    for node in ast.walk(ast.parse(path.read_text(encoding="utf-8"))):
        if isinstance(node, ast.Import):
            yield from (
                (one.name.partition(".")[2], node.lineno) for one in node.names
                if one.name.partition(".")[0] == PACKAGE.name
            )
        elif isinstance(node, ast.ImportFrom):
            base = _base(node, name.split(".") if path.name == "__init__.py" else name.split(".")[:-1])
            if base is not None:
                for one in node.names:
                    within = f"{base}.{one.name}".strip(".")
                    yield (within if within in known else base), node.lineno


def _base(node: ast.ImportFrom, package: list[str]) -> str | None:
    """The module that names are imported from. None if it is not of the package."""
    words = node.module.split(".") if node.module else []
    if node.level:
        folders = [one for one in package if one]
        return ".".join(folders[: len(folders) - node.level + 1] + words)
    return ".".join(words[1:]) if words[:1] == [PACKAGE.name] else None


def height(module: str) -> int:
    """How high a module stands: it imports no module that stands higher."""
    folder = module.partition(".")[0]
    if folder in FOLDERS:
        return FOLDERS.index(folder) + 1
    return 0 if folder in STAND_ALONE else len(FOLDERS) + 1


def back_edges() -> list[Import]:
    """Imports of what stands higher, or of anything by what stands alone."""
    return [one for one in imports() if height(one.imported) > height(one.module) or one.module in STAND_ALONE]


def cycles() -> list[list[str]]:
    """The groups of modules that import each other, by whichever way (Tarjan 1972).

    A package's own module counts as one.
    """
    after: dict[str, list[str]] = {name: [] for name in modules()}
    for one in imports():
        after.setdefault(one.module, []).append(one.imported)
    found: list[list[str]] = []
    numbers: dict[str, int] = {}
    lowest: dict[str, int] = {}
    stack: list[str] = []

    def visit(name: str) -> None:
        numbers[name] = lowest[name] = len(numbers)
        stack.append(name)
        for other in after.get(name, ()):
            if other not in numbers:
                visit(other)
                lowest[name] = min(lowest[name], lowest[other])
            elif other in stack:
                lowest[name] = min(lowest[name], numbers[other])
        if lowest[name] == numbers[name]:
            place = stack.index(name)
            group = stack[place:]
            del stack[place:]
            if len(group) > 1:
                found.append(sorted(group))

    for name in after:
        if name not in numbers:
            visit(name)
    return sorted(found)


def drawn() -> str:
    """The map as a table: what each folder is for, by the first words of its own module,
    and which folders it imports from."""
    rows = ["| Folder | What is in it | It imports from |", "|---|---|---|"]
    known = imports()
    for folder in FOLDERS:
        text = ast.get_docstring(ast.parse((PACKAGE / folder / "__init__.py").read_text(encoding="utf-8"))) or ""
        below = {one.imported.partition(".")[0] for one in known if one.module.partition(".")[0] == folder} - {folder}
        named = ", ".join(f"`{one}`" for one in sorted(below, key=lambda one: (height(one), one)))
        told = " ".join(text.partition("\n\n")[0].split())
        rows.append(f"| `{folder}` | {told} | {named or 'nothing'} |")
    return "\n".join(rows) + "\n"


def written(page: str) -> str:
    """The page with the map in it."""
    before, _, rest = page.partition(BEGIN)
    _, end, behind = rest.partition(END)
    return f"{before}{BEGIN}{drawn()}{end}{behind}"


if __name__ == "__main__":
    if sys.argv[1:] == ["--write"]:
        PAGE.write_text(written(PAGE.read_text(encoding="utf-8")), encoding="utf-8")
    else:
        print(drawn(), end="")
