"""What a reader of races is told beside them: why lines have no source, and what gives no order that could."""

from __future__ import annotations

import ast
import os
from collections.abc import Iterator

from ..analyse.races import Races

MOST_LEFT = 5
"""So many things are told that the program has left."""
OF_SOCKETS = frozenset(
    ("accept", "recv", "recv_into", "recvfrom", "send", "sendall", "sendto", "sock_recv", "sock_sendall")
)
"""Methods by which programs tell each other that something was done."""


def hints(found: Races) -> Iterator[str]:
    """In words for a person, a line each."""
    sockets = [place for file in _files(found) if os.path.isfile(file) for place in _first_use_of_sockets(file)]
    if sockets:
        named = ", ".join(sockets)
        told = "if its message does, tell so by itc_trace.outgoing() and incoming()"
        yield f"the socket at {named} gives no order: {told}"
    yield from _left(found)


def _left(found: Races) -> Iterator[str]:
    """What the program has left at its end, in one line."""
    words = [f"{one.what} at {one.place}" for one in dict.fromkeys(found.left)]
    if words:
        more = f"; and {len(words) - MOST_LEFT} more" if len(words) > MOST_LEFT else ""
        yield f"left at the end: {'; '.join(words[:MOST_LEFT])}{more}"


def missing_sources(found: Races) -> Iterator[str]:
    """Why lines have no source, where races are listed that were kept."""
    sources = found.sources
    unkept = (file for file in _files(found) if file not in sources.kept)
    missing = [file for file in unkept if not os.path.isfile(sources.path(file) or file)]
    if missing:
        named = ", ".join(missing)
        yield f"no line of {named} is shown, as it is not here: list the races in the folder of the run to see them"


def _files(found: Races) -> list[str]:
    return list(
        dict.fromkeys(file for race in found.found_ones for file in map(_file_of, race.sides) if file)
    )


def _file_of(side: object) -> str:
    file, _, line = str(getattr(side, "place")).rpartition(":")
    return file if line.isdigit() and not file.startswith("<") else ""


def _first_use_of_sockets(file: str) -> list[str]:
    """The place where a program that imports sockets first sends or takes by one. None if it does not."""
    try:
        with open(file, "rb") as source:
            tree = ast.parse(source.read())
    except (OSError, SyntaxError, ValueError, RecursionError):
        return []
    nodes = list(ast.walk(tree))
    is_importing = any(
        isinstance(node, ast.Import) and any(name.name == "socket" for name in node.names)
        or isinstance(node, ast.ImportFrom) and node.module == "socket" for node in nodes
    )
    lines = [
        node.lineno for node in nodes
        if isinstance(node, ast.Call) and isinstance(node.func, ast.Attribute) and node.func.attr in OF_SOCKETS
    ]
    return [f"{file}:{min(lines)}"] if is_importing and lines else []
