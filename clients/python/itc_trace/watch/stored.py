"""Finds what other modules of the program store: variables of modules, as `config.debug = True` does, and fields that
may have methods.

A module may be imported before the one that stores into it. So the sources of a folder are looked through, as texts,
before the first module of it is rewritten. A name that is found without need costs a hook, and nothing else. What is
found is kept for other runs.
"""

from __future__ import annotations

import os
import re
from collections.abc import Iterable, Iterator
from itertools import islice
from typing import NamedTuple

from .kept import Kept
from ..model.kinds import MAPS, METHODS
from .learned import STORED_ELSEWHERE, STORED_FIELDS
from .process_state import CHANGED_STATE, NAMES_OF_CHANGES, VARIABLES, changed_by

MOST_FILES = MOST_FOLDERS = 400
MOST_BYTES = 1 << 20
FEWEST_KEPT = 8
"""What so few files store is found as soon as it is read."""
_OPERATOR = rb"(?:[-+%&|^@]|\*\*?|//?|<<|>>)?=(?!=)"
_FIELD = re.compile(rb"\.([^\W\d]\w*)(?=[ \t]*(?:(?:,[^=\n]*)?" + _OPERATOR + rb"|:[^=\n]+=(?!=)))")
"""A field that gets a value."""
_BY_NAME = re.compile(rb"""(?:setattr|delattr)\([ \t]*([^\W\d]\w*)[ \t]*,[ \t]*["'](\w+)["']""")
_DELETED = re.compile(rb"del[ \t]+([^\W\d]\w*)\.([^\W\d]\w*)")
_GIVEN = re.compile(rb"=[ \t]*([\w.]+)(\()?")
"""What a name may get: a method of a container, if it has the name of one."""
_DELEGATING = re.compile(rb"def[ \t]+(__getattr__|__getattribute__)\b")
"""Methods that may give what another object has."""
_NAME_BEFORE = re.compile(rb"([^\W\d]\w*)[ \t]*\Z")
LONGEST_NAME = 80
_MODULES_BY_NAME = (b"import_module(", b"__import__(", b"sys.modules")
"""What stands in each source that finds modules by their names, and may store into them."""
SELF = b"self"
_SETTING = b"attr("
"""What stands in each source that sets or deletes an attribute by its name."""
_METHODS = frozenset(name.encode() for name in METHODS)
_IMPORT = re.compile(rb"import\b(?:[^\n(]*\([^)]*\)|[^\n]*)")
_BEFORE_IMPORT = re.compile(rb"[ \t]*(?:from[^\n]*)?\Z")
_WORD = re.compile(rb"\w+")

_seen: set[str] = set()
"""Folders that were looked through."""
_read: dict[str, tuple[frozenset[str], frozenset[str]]] = {}
"""What each file stores elsewhere, and which fields it stores."""


class Source(NamedTuple):
    """A file, as it was when it was looked at."""

    path: str
    changed: int
    size: int


def look_through(folder: str) -> None:
    """Keeps the names that the sources of a folder, and of the folders in it, store into what they import.

    Each folder is read once.
    """
    if folder not in _seen:
        folders: set[str] = set()
        sources = list(islice(_sources_in(folder, folders), MOST_FILES + 1))
        _seen.add(folder)
        if len(sources) <= MOST_FILES and len(folders) < MOST_FOLDERS:
            _seen.update(folders)  # What is in them is found with this one.
        elsewhere, fields = _stored_in(folder, sources[:MOST_FILES])
        STORED_ELSEWHERE.update(elsewhere)
        STORED_FIELDS.update(fields)


def _sources_in(folder: str, folders_seen: set[str]) -> Iterator[Source]:
    """Not more than so many, and none of what is hidden or installed."""
    for place, folders, names in islice(os.walk(folder), MOST_FOLDERS):
        folders[:] = [
            one for one in folders if not one.startswith((".", "__")) and one not in ("site-packages", "dist-packages")
        ]
        folders_seen.add(place)
        for name in names:
            if name.endswith(".py"):
                path = os.path.join(place, name)
                try:
                    known = os.stat(path)
                except OSError:
                    continue
                yield Source(path, known.st_mtime_ns, known.st_size)


def _stored_in(folder: str, sources: list[Source]) -> tuple[set[str], set[str]]:
    if len(sources) < FEWEST_KEPT:
        return _stored_by_all(sources)
    kept = Kept(
        os.path.join(folder, "__init__.py"), "names",
        repr([tuple(one) for one in sources]).encode("utf-8", "surrogateescape"),
    )
    found: tuple[set[str], set[str]] | None = kept.found(lambda made: True)
    if found is None:
        found = _stored_by_all(sources)
        kept.keep(found)
    return found


def _stored_by_all(sources: list[Source]) -> tuple[set[str], set[str]]:
    elsewhere: set[str] = set()
    fields: set[str] = set()
    for source in sources:
        if source.path not in _read:
            text = _text_of(source.path)
            stored = [*_FIELD.finditer(text)]
            _read[source.path] = frozenset(_elsewhere(text, stored)), frozenset(_kept(text, stored))
        elsewhere.update(_read[source.path][0])
        fields.update(_read[source.path][1])
    return elsewhere, fields


def _text_of(file: str) -> bytes:
    try:
        with open(file, "rb") as source:
            return source.read(MOST_BYTES)
    except OSError:
        return b""


def stored_by(text: bytes) -> set[str]:
    """The names that a source stores into what it imports."""
    return _elsewhere(text, _FIELD.finditer(text))


def _elsewhere(text: bytes, stored: Iterable[re.Match[bytes]]) -> set[str]:
    imported = {name.encode() for name in imported_by(text)}
    looked_at = stored if SELF in imported else (one for one in stored if not _is_of_self(text, one.start()))
    pairs = [(_name_before(text, found.start()), found[1]) for found in looked_at]
    pairs += [*(_BY_NAME.findall(text) if _SETTING in text else ()), *_DELETED.findall(text)]
    if any(one in text for one in _MODULES_BY_NAME):
        return {_text(attribute) for _, attribute in pairs}
    return {_text(attribute) for name, attribute in pairs if name in imported}


def _is_of_self(text: bytes, place: int) -> bool:
    """Whether the name that ends in front of a place is that of most objects."""
    if not text.endswith(SELF, 0, place):
        return False
    before = text[max(0, place - len(SELF) - 1):place - len(SELF)]
    return not before.isalnum() and before != b"_"


def _name_before(text: bytes, place: int) -> bytes | None:
    """The name that ends in front of a place of a text."""
    found = _NAME_BEFORE.search(text, max(0, place - LONGEST_NAME), place)
    return None if found is None else found[1]


def imported_by(text: bytes) -> set[str]:
    """The words behind `import`: names of what is imported, and of where that is."""
    found: set[bytes] = set()
    for one in _IMPORT.finditer(text):
        line = text.rfind(b"\n", 0, one.start()) + 1
        if _BEFORE_IMPORT.match(text, line, one.start()):
            found.update(_WORD.findall(text[line:one.end()]))
    return {_text(word) for word in found}


def _text(name: bytes) -> str:
    return name.decode(errors="replace")


_KNOWN_CHANGES = frozenset(name.encode() for name in NAMES_OF_CHANGES)
_CHANGES = tuple(_KNOWN_CHANGES)
_MAPS = MAPS.encode()
_LONGEST_CHANGE = max(map(len, _CHANGES)) + 1
"""With the letter before it, if there is one."""
_ENDS = frozenset(name[-2:] for name in _CHANGES)
_SPACES = frozenset((b" ", b"\t"))


def _changed_state(text: bytes) -> set[bytes]:
    """What the library keeps for all threads, and a source may change.

    It calls a function for that. What stands before each of its brackets is found far sooner than the names are.
    """
    ends = {
        one[-_LONGEST_CHANGE:] if one[-1:] not in _SPACES else one.rstrip(b" \t")[-_LONGEST_CHANGE:]
        for one in text.split(b"(")[:-1]
    }
    names = {_NAME_BEFORE.findall(one)[0] for one in ends if one[-2:] in _ENDS and one.endswith(_CHANGES)}
    return {(CHANGED_STATE + thing).encode() for name in names & _KNOWN_CHANGES for thing in changed_by(_text(name))}


_VARIABLES: dict[tuple[bytes | None, bytes], str] = {
    (module.encode(), last.encode()): kept.name
    for (module, _, last), kept in [(name.rpartition("."), kept) for name, kept in VARIABLES.items()]
}
_NAMES_OF_VARIABLES = frozenset(name for _, name in _VARIABLES)


def _changed_variables(text: bytes, stored: Iterable[re.Match[bytes]]) -> set[bytes]:
    """What the library keeps in variables of its modules, and a source stores there."""
    stored_there = [one for one in stored if one[1] in _NAMES_OF_VARIABLES]
    names: list[tuple[bytes | None, bytes]] = [(_name_before(text, one.start()), one[1]) for one in stored_there]
    names += _BY_NAME.findall(text) if _SETTING in text else []
    return {(CHANGED_STATE + _VARIABLES[name]).encode() for name in names if name in _VARIABLES}


def kept_by(text: bytes) -> set[str]:
    """The names of fields that may have methods of containers by this source."""
    return _kept(text, _FIELD.finditer(text))


def _kept(text: bytes, stored: Iterable[re.Match[bytes]]) -> set[str]:
    fields = [*stored]
    found = {*(one[1] for one in fields), *_DELEGATING.findall(text), *_changed_state(text)}
    found |= _changed_variables(text, fields) | ({_MAPS} if b"." + _MAPS in text else set())
    for given in _GIVEN.finditer(text):
        *methods, last = given[1].split(b".")[1:] or [b""]
        if last in _METHODS and given[2] is None or not _METHODS.isdisjoint(methods):
            name = _name_before(text, given.start())
            if name is not None:
                found.add(name)
    return {_text(one) for one in found}
