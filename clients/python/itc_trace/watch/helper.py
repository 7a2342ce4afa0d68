"""The hooks in C, if there is a compiler: built once for each user and source,
and left out silently if that does not work."""

from __future__ import annotations

import importlib.machinery
import importlib.util
import os
import shutil
import subprocess
import sys
import sysconfig
import tempfile
from typing import Any

from ..model.digests import blake2b
from .both_languages import header

SOURCE = os.path.join(os.path.dirname(os.path.abspath(__file__)), "quick.c")
HEADER = "both_languages.h"
PURE = "ITC_TRACE_PURE"
"""A variable of the environment: if it is set, the hooks are those in Python."""
LONGEST_BUILD = 120.0
COMPILES = "itc_trace: compiles the hooks of watched modules, once for this Python: it takes some seconds"
KNOWN_VERSIONS = frozenset({(3, 11), (3, 12), (3, 13)})
"""Of which the helper knows the objects."""


def _is_known() -> bool:
    """Whether this Python has the objects that the helper knows.

    One for debugging has others, and one without a global lock.
    """
    is_usual = not hasattr(sys, "gettotalrefcount") and not sysconfig.get_config_var("Py_GIL_DISABLED")
    is_known_version = sys.implementation.name == "cpython" and sys.version_info[:2] in KNOWN_VERSIONS
    return is_known_version and is_usual and os.name == "posix"


def user_folder() -> str:
    """The user's own folder for what can be made again. Nobody else may write to it."""
    base = os.environ.get("XDG_CACHE_HOME") or os.path.join(os.path.expanduser("~"), ".cache")
    folder = os.path.join(base, "itc_trace")
    os.makedirs(folder, mode=0o700, exist_ok=True)
    kept = os.stat(folder)
    if kept.st_uid != os.getuid() or kept.st_mode & 0o022:
        raise PermissionError(folder)
    return folder


def _built() -> str | None:
    """The file of the built helper. A build that failed is not tried again for the same source."""
    with open(SOURCE, "rb") as source:
        text = source.read()
    told = f"{sys.version}{sysconfig.get_config_var('SOABI')}{header()}".encode()
    name = os.path.join(
        user_folder(), f"quick-{sysconfig.get_config_var('SOABI')}-{blake2b(text + told, digest_size=12).hexdigest()}",
    )
    if not os.path.exists(f"{name}.so") and not os.path.exists(f"{name}.failed"):
        _build(name)
    return f"{name}.so" if os.path.exists(f"{name}.so") else None


def _build(name: str) -> None:
    """Builds beside the name, and puts the whole file there at once."""
    with tempfile.TemporaryDirectory(dir=os.path.dirname(name)) as folder:
        made = os.path.join(folder, "quick.so")
        include = sysconfig.get_paths()["include"]
        with open(os.path.join(folder, HEADER), "w", encoding="ascii") as both:
            both.write(header())
        words = ["cc", "-O2", "-shared", "-fPIC", f"-I{include}", f"-I{folder}", SOURCE, "-o", made]
        if sys.__stderr__ is not None and shutil.which(words[0]) is not None:
            print(COMPILES, file=sys.__stderr__, flush=True)
        try:
            is_built = subprocess.run(words, capture_output=True, timeout=LONGEST_BUILD, check=False).returncode == 0
        except (OSError, subprocess.SubprocessError):
            is_built = False
        if is_built:
            os.replace(made, f"{name}.so")
        else:
            with open(f"{name}.failed", "wb"):
                pass


def _load(file: str) -> Any:
    name = f"{__package__}.quick"
    loader = importlib.machinery.ExtensionFileLoader(name, file)
    spec = importlib.util.spec_from_file_location(name, file, loader=loader)
    if spec is None:
        return None
    made = importlib.util.module_from_spec(spec)
    loader.exec_module(made)
    return made


def _references_of_variable(quick: Any) -> int:
    one: list[Any] = []
    return int(quick.references(one, 0))


def _counts_well(quick: Any) -> bool:
    """Whether it sees as many references as it takes for nobody else's."""
    return quick.references([], 0) == 1 and _references_of_variable(quick) == 2


def _helper() -> Any:
    if os.environ.get(PURE) or not _is_known():
        return None
    try:
        file = _built()
        made = None if file is None else _load(file)
        return made if made is not None and _counts_well(made) else None
    except (OSError, ImportError, AttributeError):
        return None


quick: Any = _helper()
"""The helper, or None."""
