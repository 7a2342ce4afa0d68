"""A program that closes all of its files, or puts another file at a number, does so with its own:
those of the package stay open."""

from __future__ import annotations

import errno
import os
from typing import Any

from ..record import own_files
from .base import Patches


def put(patches: Patches) -> None:
    patches.wrap(os, "close", _close)
    patches.wrap(os, "closerange", _closerange)
    patches.wrap(os, "dup2", _dup2)


def _close(original: Any) -> Any:
    def close(fd: int) -> None:
        if own_files.is_own(fd):
            raise OSError(errno.EBADF, os.strerror(errno.EBADF))
        original(fd)

    return close


def _closerange(original: Any) -> Any:
    def closerange(fd_low: int, fd_high: int, /) -> None:
        for own in own_files.between(fd_low, fd_high):
            original(fd_low, own)
            fd_low = own + 1
        original(fd_low, fd_high)

    return closerange


def _dup2(original: Any) -> Any:
    def dup2(fd: int, fd2: int, inheritable: bool = True) -> int:
        if fd2 != fd and own_files.is_own(fd2):
            own_files.make_room(fd2)
        return int(original(fd, fd2, inheritable))

    return dup2
