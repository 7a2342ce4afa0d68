"""Keeps modules of the program apart from those of the library that the package itself imports.

`python3 -m itc_trace` would look for `string` in the current folder first, and the program there may have a module of
that name.
"""

from __future__ import annotations

import os
import sys

KNOWN_BEFORE = frozenset(sys.modules)
"""What was imported before the package."""
_KEPT = frozenset(("itc_trace", "threading"))
"""The interpreter ends by what it finds as `threading`."""


def look_into_library_first() -> None:
    """Before the package imports anything else."""
    if sys.argv[:1] == ["-m"] and sys.path[:1] in ([""], [os.getcwd()]):
        sys.path[0] = os.path.dirname(os.__file__)


def leave_to_program(folder: str) -> None:
    """Forgets the modules that the package has imported, where the program's folder has others of these names."""
    for name in [
        one for one in sys.modules if "." not in one and one not in KNOWN_BEFORE | _KEPT and _is_in(folder, one)
    ]:
        for one in list(sys.modules):
            if one == name or one.startswith(f"{name}."):
                del sys.modules[one]


def _is_in(folder: str, name: str) -> bool:
    path = os.path.join(folder, name)
    return os.path.isfile(f"{path}.py") or os.path.isfile(os.path.join(path, "__init__.py"))
