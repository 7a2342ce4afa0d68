"""How files are called in what is told: the program's own as its command calls it, and others by their paths."""

from __future__ import annotations

import os

_names: dict[str, str] = {}


def call(path: str, name: str) -> None:
    """From here on this file is called so. The language itself knows the program's file by its whole path."""
    _names[path] = name


def name_of_file(path: str) -> str:
    return _names.get(path, path)


def working_folder() -> str:
    """The program's current folder. It has no name once it is gone."""
    try:
        return os.getcwd()
    except OSError:
        return ""


def real_path(file: str) -> str:
    """Where a file lies. A name that is relative stays so if the working directory is gone."""
    try:
        return os.path.realpath(file)
    except OSError:
        return file
