"""The packages that were named to be watched, of which nothing was: they are not there, were not imported,
or have no source."""

from __future__ import annotations

import importlib.util
import sys
from collections.abc import Iterator, Sequence

from ..model.handed_over import NOT
from ..model.verdict import Cause, Unseen
from .decisions import WATCHED
from .finder import FILES, Selection

_told: set[str] = set()


def tell_missing(packages: Sequence[str], folder: str) -> None:
    """Says at once which of them a program of this folder would not find.

    It may find them later, by a path that it sets.
    """
    sys.path.insert(0, folder)
    try:
        for name in (one for one in packages if not one.startswith(NOT)):
            if not _is_there(name.partition(".")[0]):
                _tell(f"there is no module {name} to be watched: name it as the program imports it")
    finally:
        sys.path.remove(folder)


def nothing_of(selection: Selection) -> Iterator[Unseen]:
    """What of the program was not watched though it was named."""
    for name in sorted(selection.packages):
        loaded = [one for one in sys.modules if one == name or one.startswith(f"{name}.")]
        if any(one in WATCHED or getattr(sys.modules[one], "__file__", None) in FILES for one in loaded):
            continue
        if loaded:
            yield Unseen(Cause.MODULE, f"nothing of {name} was watched: it has no source of Python")
        elif _is_there(name):
            _tell(f"nothing of {name} was watched: the program did not import it in this process")
        else:
            yield Unseen(Cause.MODULE, f"nothing of {name} was watched: there is no module of that name")


def _is_there(name: str) -> bool:
    """Whether it could be imported, as far as that is known without importing anything."""
    parent = name.rpartition(".")[0]
    if name in sys.modules:
        return True
    if parent and parent not in sys.modules:
        return _is_there(parent)
    try:
        return importlib.util.find_spec(name) is not None
    except (ImportError, ValueError, AttributeError):
        return False


def _tell(text: str) -> None:
    """Once in a process, however often it traces."""
    if text in _told:
        return
    _told.add(text)
    if sys.__stderr__ is not None:
        print(f"itc_trace: {text}", file=sys.__stderr__, flush=True)
