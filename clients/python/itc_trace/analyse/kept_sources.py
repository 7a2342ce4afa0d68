"""The lines of the program that are kept with a journal, so that a list made elsewhere shows them."""

from __future__ import annotations

import json
import os
import re
from collections.abc import Callable, Iterable, Iterator
from pathlib import PurePath

from ..model.file_names import working_folder
from ..model.sources import LINES_AROUND, MOST_LETTERS, Sources
from ..record.journal import OfTest, ProcessTold, SourceText

PLACE = re.compile(r'"file":("(?:[^"\\]|\\.)*"),"line":(\d+)')
MOST_FILE = 1 << 20
"""A longer file is not looked into."""
MOST_KEPT = 1 << 18
"""So many letters of source are kept with a journal at most."""
Find = Callable[[str], str | None]
"""Gives the path of a file that a journal names, if it is here."""


def here(file: str) -> str | None:
    return file if os.path.isfile(file) else None


def source_rows(lines: Iterable[str], find: Find = here) -> Iterator[SourceText]:
    """The lines of source that are around the places of a journal's lines, file by file, as long as there is room.

    Where a file was found is told without its lines, too.
    """
    room = MOST_KEPT
    for file, numbers in _places(lines).items():
        path = find(file)
        if path is not None:
            kept = _kept(path, numbers)
            room -= sum(map(len, kept.values()))
            told = SourceText(file, kept if room >= 0 else {}, _path_beside(file, path))
            if told.lines or told.path:
                yield told


def _path_beside(file: str, path: str) -> str:
    """The path from the current folder, so that a copy of the repository has it, too.

    Empty if the name leads there, or the folder is gone.
    """
    folder = working_folder()
    if not folder:
        return ""
    whole = os.path.abspath(path)
    within = os.path.relpath(whole, folder) if PurePath(whole).is_relative_to(folder) else whole
    return "" if os.path.abspath(file) == whole else within


def _places(lines: Iterable[str]) -> dict[str, set[int]]:
    """The lines of each file that the journal names."""
    found: dict[str, set[int]] = {}
    for line in lines:
        for name, number in PLACE.findall(line):
            found.setdefault(name, set()).add(int(number))
    return {json.loads(name): numbers for name, numbers in found.items()}


def _kept(path: str, numbers: set[int]) -> dict[int, str]:
    wanted = {one for number in numbers for one in range(number - LINES_AROUND, number + LINES_AROUND + 1)}
    try:
        if os.path.getsize(path) > MOST_FILE:
            return {}
        with open(path, encoding="utf-8", errors="replace") as source:
            return {
                number: line.rstrip("\r\n")[:MOST_LETTERS] if number not in numbers else line.rstrip("\r\n")
                for number, line in enumerate(source, 1) if number in wanted
            }
    except OSError:
        return {}


def sources_of(
    told: Iterable[SourceText], processes: Iterable[ProcessTold] = (), tests: Iterable[OfTest] = (),
) -> Sources:
    """The sources that journals have kept.

    Lines of which two say otherwise are left out, and so is where a file was found: it may be two files.
    """
    sources = Sources(
        processes={one.tag: one.process for one in processes}, tests={one.task: one.test for one in tests},
    )
    spoilt: set[str] = set()
    elsewhere: set[str] = set()
    for one in told:
        known = sources.kept.get(one.file, {})
        if any(known.get(number, text) != text for number, text in one.lines.items()):
            spoilt.add(one.file)
        if sources.paths.setdefault(one.file, one.path) != one.path:
            elsewhere.add(one.file)
        sources.add(one.file, one.lines)
    for file in spoilt:
        del sources.kept[file]
    for file in spoilt | elsewhere:
        del sources.paths[file]
    return sources


def add_sources(journal: str) -> None:
    """Adds the lines of source to a journal, if its last line is whole. Without them it says the same."""
    with open(journal, encoding="utf-8", errors="replace", newline="\n") as lines:
        rows = [one.row() for one in source_rows(lines)]
    with open(journal, "rb+") as file:
        size = file.seek(0, os.SEEK_END)
        file.seek(max(0, size - 1))
        if file.read() == b"\n":
            file.write("".join(rows).encode())
