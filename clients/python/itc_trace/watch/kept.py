"""Keeps what is made of sources as the language keeps what it compiles: beside them, or in a folder of the user's own.

An entry has the digest of what it was made of, that of all that decides how, and that of itself. What does not fit is
made anew.
"""

from __future__ import annotations

import importlib.util
import os
import stat
import sys
from collections.abc import Callable, Iterator
from marshal import dumps, loads
from os import O_CREAT, O_EXCL, O_RDONLY, O_WRONLY, close, fstat, getpid, replace, unlink, write
from os import open as open_file
from os import read as read_file
from os import stat as status
from typing import Any

from ..model.digests import blake2b
from .helper import quick, user_folder

MAGIC = b"itc_trace kept 1"
DIGEST = 16
source_hash: Callable[[bytes], bytes] = vars(importlib.util)["source_hash"]
HASH = len(source_hash(b""))
HEADER = len(MAGIC) + 2 * DIGEST + HASH
MOST_SLOTS = 4
"""So many entries there are of one file: programs may ask for it by several names, or know other things of it."""
MOST_OF_USER = 4096
"""So many entries there are in the user's own folder, about. What was made first goes first."""
MAINS = ("__main__", "__mp_main__")
FEWEST_BYTES_OF_MAIN = 4096
"""The language keeps no program's main file. That of a shorter one is rewritten at once."""
OTHERS_MAY_WRITE = 0o022
OWN_MODE = 0o600
PACKAGE = os.path.dirname(os.path.dirname(os.path.abspath(__file__)))
_LOOSE_SOURCES = ("conflicts.py", "file_names.py", "stretches.py", "verdict.py")
"""What decides how a module is rewritten, beside the sources in the folder of this one."""

_settings: list[bytes] = []
_folders: dict[str, str] = {}


def digest(*parts: bytes) -> bytes:
    whole = blake2b(digest_size=DIGEST)
    for one in parts:
        whole.update(len(one).to_bytes(8, "little"))
        whole.update(one)
    return bytes(whole.digest())


def _setting() -> bytes:
    """The digest of this package's rewriting, and of the Python that compiles."""
    if not _settings:
        folder = os.path.dirname(os.path.abspath(__file__))
        files = [*(os.path.join(folder, name) for name in sorted(os.listdir(folder)) if name.endswith((".py", ".c")))]
        texts = []
        for file in (*files, *(os.path.join(PACKAGE, "model", name) for name in _LOOSE_SOURCES)):
            with open(file, "rb") as source:
                texts.append(source.read())
        _settings.append(digest(*texts, repr(_python()).encode()))
    return _settings[0]


def _python() -> tuple[object, ...]:
    has_columns = next(compile("a", "", "eval").co_positions())[2] is not None
    words = sys.implementation.cache_tag, sys.hexversion, importlib.util.MAGIC_NUMBER, sys.flags.optimize
    return *words, has_columns, quick is None


class Kept:
    """The entries of one file.

    `kind` tells what they are, and `words` are what decides how they were made, beside the file itself.
    """

    def __init__(self, file: str, kind: str, source: bytes, *words: str) -> None:
        self._file = file
        self._kind = kind
        self._source = digest(source)
        self._words = words
        self._is_main = any(one in MAINS for one in words)
        self._is_left_out = self._is_main and len(source) < FEWEST_BYTES_OF_MAIN

    def found(self, fits: Callable[[Any], bool]) -> Any:
        """What was kept and fits. None if there is nothing of the kind."""
        if self._is_left_out:
            return None
        try:
            wanted = MAGIC + self._source + self._decided()
            for slot in self._slots():
                body = _body_of(slot, wanted)
                if body is not None:
                    made = loads(body)
                    if fits(made):
                        return made
        except Exception:  # Whatever is there, it is none of this package's.
            pass
        return None

    def keep(self, made: Any) -> None:
        """Writes it to a file of its own, which takes its place at once. What cannot be written is not kept."""
        if sys.dont_write_bytecode or self._is_left_out:
            return
        try:
            body = dumps(made)
            whole = MAGIC + self._source + self._decided() + source_hash(body) + body
            _write_whole(self._slot_for(made), whole)
        except (OSError, ValueError, NotImplementedError):
            pass

    def _decided(self) -> bytes:
        words = (self._kind, self._file, *self._words)
        return digest(_setting(), *(word.encode("utf-8", "surrogateescape") for word in words))

    def _slots(self) -> Iterator[str]:
        """The files of the entries, up to the first one that is not there."""
        name = self._name()
        for number in range(MOST_SLOTS):
            slot = f"{name}{number}.pyc"
            if not os.path.lexists(slot):
                return
            yield slot

    def _slot_for(self, made: Any) -> str:
        """The file for another entry: of what is no more worth anything, else a new one, else what was made first."""
        slots = list(self._slots())
        for slot in slots:
            if self._may_go(slot, made):
                return slot
        if len(slots) < MOST_SLOTS:
            return f"{self._name()}{len(slots)}.pyc"
        return min(slots, key=lambda slot: status(slot).st_mtime_ns)

    def _may_go(self, slot: str, made: Any) -> bool:
        """Whether the entry is broken, of another source, or for the same answers as another one."""
        head = _head_of(slot)[:HEADER - HASH]
        body = _body_of(slot, head) if head.startswith(MAGIC + self._source) else None
        return body is None or head.endswith(self._decided()) and loads(body)[0] == made[0]

    def _name(self) -> str:
        beside = importlib.util.cache_from_source(self._file, optimization="")
        folder = os.path.dirname(beside)
        if not self._is_main and _is_own(folder):
            return f"{beside.removesuffix('.pyc')}-itc_trace-{self._kind}"
        path = os.path.abspath(self._file).encode("utf-8", "surrogateescape")
        return os.path.join(_user_folder(), f"{digest(path).hex()}-{self._kind}")


def _is_own(folder: str) -> bool:
    """Whether the folder is there, and nobody else may write to it."""
    try:
        kept = status(folder)
    except OSError:
        return False
    return kept.st_uid == os.getuid() and not kept.st_mode & OTHERS_MAY_WRITE


def _user_folder() -> str:
    if "user" not in _folders:
        folder = os.path.join(user_folder(), "modules")
        os.makedirs(folder, mode=0o700, exist_ok=True)
        if not _is_own(folder):
            raise PermissionError(folder)
        _folders["user"] = folder
    return _folders["user"]


def _opened(file: str) -> int | None:
    """A file that this user alone has written.

    Whoever may rename it may put another one there, so the open one is looked at.
    """
    one = open_file(file, O_RDONLY | getattr(os, "O_CLOEXEC", 0) | getattr(os, "O_NONBLOCK", 0))
    kept = fstat(one)
    if stat.S_ISREG(kept.st_mode) and kept.st_uid == os.getuid() and not kept.st_mode & OTHERS_MAY_WRITE:
        return one
    close(one)
    return None


def _head_of(file: str) -> bytes:
    try:
        one = _opened(file)
    except OSError:
        return b""
    if one is None:
        return b""
    try:
        return read_file(one, HEADER)
    finally:
        close(one)


def _body_of(file: str, wanted: bytes) -> bytes | None:
    """What an entry has, if it is whole and what is wanted."""
    try:
        one = _opened(file)
    except OSError:
        return None
    if one is None:
        return None
    try:
        head = read_file(one, HEADER)
        if head[:len(wanted)] != wanted:
            return None
        left = fstat(one).st_size - HEADER
        body = read_file(one, left + 1)
    finally:
        close(one)
    return body if len(body) == left and source_hash(body) == head[len(wanted):] else None


def _write_whole(file: str, whole: bytes) -> None:
    beside = f"{file}.{getpid()}.{id(whole)}"
    try:
        one = open_file(beside, O_WRONLY | O_CREAT | O_EXCL | getattr(os, "O_CLOEXEC", 0), OWN_MODE)
        try:
            done = 0
            while done < len(whole):
                done += write(one, whole[done:])
        finally:
            close(one)
        replace(beside, file)
    except BaseException:
        _forget(beside)
        raise
    if os.path.dirname(file) == _folders.get("user"):
        _drop_first(os.path.dirname(file))


def _drop_first(folder: str) -> None:
    files = [os.path.join(folder, name) for name in os.listdir(folder)]
    if len(files) > MOST_OF_USER:
        files.sort(key=lambda file: os.lstat(file).st_mtime_ns)
        for file in files[:len(files) - MOST_OF_USER]:
            _forget(file)


def _forget(file: str) -> None:
    try:
        unlink(file)
    except OSError:
        pass
