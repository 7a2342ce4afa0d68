"""The file that a journal is written to, by the thread that reads replies and by forked children."""

from __future__ import annotations

import contextlib
import errno
import os
from _thread import get_ident

from . import own_files

_write = os.write
"""As it is before any program is traced."""
LOOKED_BACK = 1 << 16
"""So many bytes at the end of a journal are looked through for lines that make room."""
CLOSED = "the program has closed its file"
ADDS = os.O_WRONLY | os.O_APPEND | getattr(os, "O_CLOEXEC", 0)


class JournalFile:
    """Adds whole lines to the file. Nothing is kept in between, so that a forked child has nothing to write twice.

    It counts the lines that this process writes. Each thread counts its own, so that no thread waits for another.
    """

    def __init__(self, path: str, adds: bool = False) -> None:
        """Writes the file anew, or adds to one that is there."""
        self._path = os.path.abspath(path)
        self._file: int | None = None
        self._open(ADDS if adds else ADDS | os.O_CREAT | os.O_TRUNC)
        self._identity = self._identity_now()
        self._lines: dict[int, int] = {}

    @property
    def lines(self) -> int:
        """How many lines were written."""
        return sum(list(self._lines.values()))

    def write(self, text: str) -> None:
        thread = get_ident()
        self._lines[thread] = self._lines.get(thread, 0) + text.count("\n")
        left = text.encode("utf-8", "backslashreplace")
        if left and self._file is not None:
            self._find_again()
        while left and self._file is not None:
            left = left[_write(self._file, left):]

    def write_last(self, text: str) -> None:
        """Adds a line that nothing comes behind. If there is no room for it, it takes that of the lines before it."""
        try:
            self.write(text)
        except OSError as fault:
            if fault.errno not in (errno.ENOSPC, errno.EDQUOT, errno.EFBIG):
                raise
            self._write_over(text.encode("utf-8", "backslashreplace"))

    def close(self) -> None:
        file, self._file = self._file, None
        if file is not None:
            with contextlib.suppress(OSError):  # The program has closed it.
                own_files.close(file)

    def _open(self, flags: int) -> None:
        self._file = own_files.keep(os.open(self._path, flags, 0o666), self._move)

    def _move(self, file: int) -> None:
        self._file = file

    def _identity_now(self) -> tuple[int, int] | None:
        return None if self._file is None else own_files.identity_of(self._file)

    def _find_again(self) -> None:
        """Opens the file once more if the program has closed it, or has another file at its number."""
        if self._identity_now() == self._identity:
            return
        if self._file is not None:
            own_files.let_go(self._file)
        try:
            self._open(ADDS)
        except OSError:
            raise OSError(errno.EBADF, CLOSED) from None
        if self._identity_now() != self._identity:
            raise OSError(errno.EBADF, CLOSED)

    def _write_over(self, line: bytes) -> None:
        with open(self._path, "r+b", buffering=0) as file:
            end = file.seek(0, os.SEEK_END)
            begin = max(0, end - LOOKED_BACK)
            file.seek(begin)
            known = file.read()
            place = known.rfind(b"\n", 0, max(0, len(known) - len(line))) + 1
            if not place and begin or len(known) - place < len(line):
                raise OSError(errno.ENOSPC, os.strerror(errno.ENOSPC))
            file.seek(begin + place)
            file.write(line)
            file.truncate()
