"""What of the program's own code ran without hooks, because the program loaded it by other means than an import."""

from __future__ import annotations

import gc
import os
from types import CodeType, FunctionType

from ..model.frames import line_of
from ..record.noting import LOST
from ..model.file_names import real_path
from ..model.verdict import Cause, Unseen
from .finder import FILES, LIBRARY_FOLDERS, Selection


def files_without_hooks(selection: Selection) -> list[Unseen]:
    """Each file of the program of which there are functions, none of them has hooks, and nobody was told so."""
    files = {one.__code__.co_filename for one in gc.get_objects() if type(one) is FunctionType} - FILES
    own = _own_folders({os.path.dirname(file) for file in files}, selection)
    known = {real_path(file) for file in FILES}
    left = {
        file for file in files
        if _is_source(file) and os.path.dirname(file) in own and real_path(file) not in known
    }
    return [
        Unseen(Cause.MODULE, f"{os.path.basename(file)} was not watched, as it was not imported from a source file")
        for file in sorted(left)
    ]


def _touches(count: int) -> str:
    return "1 touch" if count == 1 else f"{count} touches"


def touches_lost() -> list[Unseen]:
    """The touches that hooks have failed to note, by place. Tracing went on behind them."""
    return [
        Unseen(
            Cause.TRACER,
            f"{_touches(count)} could not be noted{_told_at(code, instruction)}: {fault} in a hook",
        )
        for (code, instruction, fault), count in list(LOST.items())
    ]


def _told_at(code: CodeType | None, instruction: int) -> str:
    return "" if code is None else f" at {os.path.basename(code.co_filename)}:{line_of(code, instruction)}*"


def _is_source(file: str) -> bool:
    """Whether it is a file of Python by its name, or a program without one of the names for it."""
    return file.endswith(".py") or os.path.splitext(file)[1] in ("", ".pyw") and os.path.isfile(file)


def _own_folders(folders: set[str], selection: Selection) -> set[str]:
    """Those whose modules are watched.

    There are far fewer of them than files, and to look at one takes some calls of the system.
    """
    others = (folder for folder in folders if not (folder + os.sep).startswith(LIBRARY_FOLDERS))
    return {folder for folder in others if selection.has_file("", os.path.join(folder, "module.py"))}
