"""Trees of sources, made in any thread."""

from __future__ import annotations

import ast
import linecache

MOST_TRIES = 64


def tree_of_text(text: str | bytes, file: str = "<unknown>") -> ast.Module:
    """The tree of a source.

    Some Pythons raise `SystemError` if another thread makes a tree meanwhile. Then it is made once more. Raises what
    `ast.parse` raises: that error, too, if each time another thread is in between.
    """
    for _ in range(MOST_TRIES - 1):
        try:
            return ast.parse(text, file)
        except SystemError:
            continue
    return ast.parse(text, file)


def tree_of_file(file: str) -> ast.Module | None:
    """The tree of a file of the program. None if it has no source, or one of which no tree can be made."""
    text = "".join(linecache.getlines(file))
    try:
        return tree_of_text(text) if text else None
    except (SyntaxError, SystemError, ValueError, RecursionError):
        return None
