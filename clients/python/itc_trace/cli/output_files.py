"""The files that a command writes: they can be written, and none is one that it reads, or writes for something else."""

from __future__ import annotations

import os
from collections.abc import Iterable

from ..record.faults import Fault


def check_writable(file: str) -> None:
    was_there = os.path.exists(file)
    if os.path.isdir(file):
        raise Fault(f"{file} cannot be written: it is a folder")
    if was_there and not os.path.isfile(file):
        raise Fault(f"{file} cannot be written: it is no regular file, and what is written there is read again")
    try:
        with open(file, "ab"):
            pass
    except OSError as error:
        raise Fault(f"{file} cannot be written: {error.strerror}") from error
    if not was_there:
        os.unlink(file)


def check_outputs(outputs: Iterable[tuple[str, str | None]], inputs: Iterable[tuple[str, str]] = ()) -> None:
    """Finds what keeps the files of options from being written, and what they would overwrite, before anything begins.

    An output has the option that names it, and an input the word for what it is.
    """
    named = [(option, file) for option, file in outputs if file is not None]
    for number, (option, file) in enumerate(named):
        for what, read in inputs:
            if _are_same(file, read):
                raise Fault(f"{option} {file} would overwrite {what}: name another file")
        for other, written in named[:number]:
            if _are_same(file, written):
                raise Fault(f"{other} and {option} both name {file}: name two files")
        check_writable(file)


def _are_same(one: str, other: str) -> bool:
    if os.path.exists(one) and os.path.exists(other):
        return os.path.samefile(one, other)
    return os.path.realpath(one) == os.path.realpath(other)
