"""Finds the source files that a process names, which may lie elsewhere than where it is started."""

from __future__ import annotations

import os
from collections.abc import Sequence
from pathlib import Path

MOST_LOOKED_AT = 20_000
"""So many files of a process's folder are looked through at most."""
PASSED_OVER = frozenset((".git", "node_modules", "target", "build", "__pycache__", ".venv", "venv"))


class ProcessSources:
    """The files that the journal of a process names.

    They are looked for in the process's folder, in those of the files that its command names, in the current one, and
    in those above. The file that describes a system may lie elsewhere.
    """

    def __init__(self, directory: str, command: Sequence[str]) -> None:
        folder = Path(directory)
        words = [folder / word for part in command for word in part.split(os.pathsep)]
        named = [word for word in words if os.path.exists(word)]
        folders = [one.resolve() for one in (folder, *(word if word.is_dir() else word.parent for word in named))]
        self._roots = list(dict.fromkeys([*folders, Path.cwd()]))
        near = (one for root in folders[1:] for one in (root, root.parent))
        self._above = list(dict.fromkeys(one for one in near if one != one.parent))
        self._below: dict[Path, dict[str, list[str]]] = {}

    def find(self, file: str) -> str | None:
        """The path of a file: from one of the folders or from one above it, as Cargo names files, else below one.

        Java names files by their package, so the folder of the sources is not known. It may lie beside that of the
        classes. A file that is there once is meant.
        """
        if os.path.isabs(file):
            return file if os.path.isfile(file) else None
        for folder in dict.fromkeys(one for root in self._roots for one in (root, *root.parents)):
            if (folder / file).is_file():
                return str(folder / file)
        for folder in (self._roots[0], *self._above):
            named = self._named(folder, file)
            if named:
                return named[0] if len(named) == 1 else None
        return None

    def _named(self, folder: Path, file: str) -> list[str]:
        """The files below a folder whose paths end so. Kotlin does not ask for the folders of a package."""
        found = self._files_of(folder).get(os.path.basename(file), [])
        return [one for one in found if one.endswith(f"/{file}")] or ([] if file.endswith(".java") else found)

    def _files_of(self, folder: Path) -> dict[str, list[str]]:
        """The files below a folder, by their names."""
        if folder not in self._below:
            by_name = self._below.setdefault(folder, {})
            left = MOST_LOOKED_AT
            for within, folders, files in os.walk(folder):
                folders[:] = sorted(one for one in folders if one not in PASSED_OVER)
                left -= len(files)
                if left < 0:
                    break
                for name in files:
                    by_name.setdefault(name, []).append(os.path.join(within, name))
        return self._below[folder]
