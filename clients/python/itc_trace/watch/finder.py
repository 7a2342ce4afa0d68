"""Finds the modules of the program, and has them rewritten as they are imported."""

from __future__ import annotations

import importlib.machinery
import os
import sys
import sysconfig
from collections.abc import Callable, Sequence
from fnmatch import fnmatchcase
from types import CodeType, ModuleType

from ..model.file_names import real_path
from ..model.handed_over import NOT
from ..model.verdict import Cause, Unseen
from ..sync.base import name_as
from .decisions import WATCHED
from .making import kept_code, new_code
from .stored import imported_by, look_through

OWN_FOLDER = os.path.dirname(os.path.dirname(os.path.abspath(__file__)))
LIBRARY_FOLDERS = tuple(
    os.path.realpath(path) + os.sep
    for path in {sysconfig.get_path(name) for name in ("stdlib", "platstdlib", "purelib", "platlib")}
)
INSTALLED = ("site-packages", "dist-packages")
COMPILED = tuple(importlib.machinery.BYTECODE_SUFFIXES + importlib.machinery.EXTENSION_SUFFIXES)
"""How the files end that are no sources of a module."""

FILES: set[str] = set()
"""Those whose code has hooks, or of which was told that it has none."""
UNWATCHED: list[Unseen] = []
"""The modules that were to be watched, and run as they are."""


class Selection:
    """Which modules are watched: those in the folders of the program, and packages that were named."""

    def __init__(self, folders: Sequence[str], packages: Sequence[str] = ()) -> None:
        self.folders = [os.path.realpath(folder) for folder in folders]
        self.packages = frozenset(one for one in packages if not one.startswith(NOT))
        self.excluded = tuple(one.removeprefix(NOT) for one in packages if one.startswith(NOT))

    def has_file(self, name: str, file: str | None) -> bool:
        """Whether the module of this name and file is watched, whatever its source is called."""
        if not file or file.endswith(COMPILED) or _is_within(file, OWN_FOLDER) or self._is_excluded(file):
            return False
        return self.has_package(name) or self.has_own(file)

    def has_package(self, name: str) -> bool:
        parts = name.split(".")
        return any(".".join(parts[: length + 1]) in self.packages for length in range(len(parts)))

    def has_own(self, file: str) -> bool:
        path = real_path(file)
        if any(f"{os.sep}{one}{os.sep}" in path for one in INSTALLED) or path.startswith(LIBRARY_FOLDERS):
            return False
        return any(_is_within(path, folder) for folder in self.folders)

    def _is_excluded(self, file: str) -> bool:
        """Whether a pattern names the file, by its path within a watched folder."""
        if not self.excluded:
            return False
        path = real_path(file)
        within = [os.path.relpath(path, folder) for folder in self.folders if _is_within(path, folder)]
        return any(fnmatchcase(one, pattern) for one in within for pattern in self.excluded)

    def folder_of(self, file: str) -> str:
        """The watched folder that the file is in, else its own."""
        return next(
            (folder for folder in self.folders if _is_within(file, folder)), os.path.dirname(os.path.realpath(file)),
        )

    def has_import(self, name: str) -> bool:
        """Whether what is imported by this dotted name may be of a module that is watched."""
        first = name.partition(".")[0]
        is_main = first == "__main__"
        if is_main or self.has_package(name) or any(one.partition(".")[0] == first for one in self.packages):
            return True
        return any(
            os.path.isfile(os.path.join(folder, first + ".py")) or os.path.isdir(os.path.join(folder, first))
            for folder in (*self.folders, *sys.path[:1])
        )


def _is_within(file: str, folder: str) -> bool:
    return real_path(file).startswith(folder.rstrip(os.sep) + os.sep)


class Loader(importlib.machinery.SourceFileLoader):
    """Loads a module with hooks, whose code is at hand:
    so no frame of this package stands in the traceback of an import."""

    def __init__(self, name: str, path: str, code: CodeType) -> None:
        super().__init__(name, path)
        self._code = code

    def get_code(self, fullname: str) -> CodeType | None:
        return self._code


name_as(Loader, importlib.machinery.SourceFileLoader.__name__, importlib.machinery.SourceFileLoader.__module__)


def with_hooks(
    source: bytes, file: str, module: str, selection: Selection, plain: Callable[[], CodeType | None],
) -> CodeType | None:
    """The code of a module with hooks, else its plain one; then one line says so. None if it has none."""
    try:
        made = kept_code(source, file, module, selection.has_import)
        if made is None:
            as_it_is = plain()
            if as_it_is is None:
                return None
            made = new_code(source, file, module, selection.has_import)
    except Exception as fault:  # The program's import is not to fail, whatever the fault is.
        tell_unwatched(file, fault)
        return plain()
    WATCHED.add(module)
    FILES.add(file)
    return made


def look_around(source: bytes, file: str, selection: Selection) -> None:
    """Has the folder of a program looked through, if it imports what is watched."""
    if any(selection.has_import(name) for name in imported_by(source)):
        look_through(selection.folder_of(file))


def tell_unwatched(file: str, fault: BaseException) -> None:
    why = f"{type(fault).__name__}: {fault}".splitlines()[0]
    told = f"{os.path.basename(file)} runs as it is, and is not watched: {why}"
    UNWATCHED.append(Unseen(Cause.MODULE, told))
    FILES.add(file)
    if sys.__stderr__ is not None:
        print(f"itc_trace: {told}", file=sys.__stderr__, flush=True)


class Finder:
    """Stands before the finders of the language, and gives watched modules another loader."""

    def __init__(self, selection: Selection) -> None:
        self.selection = selection

    def find_spec(
        self, name: str, path: Sequence[str] | None = None, target: ModuleType | None = None
    ) -> importlib.machinery.ModuleSpec | None:
        spec = self.with_loader(importlib.machinery.PathFinder.find_spec(name, path, target))
        return spec if spec is not None and type(spec.loader) is Loader else None

    def with_loader(self, spec: importlib.machinery.ModuleSpec | None) -> importlib.machinery.ModuleSpec | None:
        """A module that the program finds by itself, with the loader that gives it hooks if it is watched."""
        if spec is None or type(spec.loader) is not importlib.machinery.SourceFileLoader:
            return spec
        if not self.selection.has_file(spec.name, spec.origin):
            return spec
        code = self._code_of(spec.name, spec.loader)
        if code is not None and spec.origin is not None:
            spec.loader = Loader(spec.name, spec.origin, code)
        return spec

    def _code_of(self, name: str, loader: importlib.machinery.SourceFileLoader) -> CodeType | None:
        """The code with hooks. What the program's own import would fail for is left to that."""
        try:
            source = loader.get_data(loader.path)
        except Exception:
            return None
        look_through(self.selection.folder_of(loader.path))

        def plain() -> CodeType | None:
            try:
                return loader.get_code(name)
            except Exception:
                return None

        return with_hooks(source, loader.path, name, self.selection, plain)
