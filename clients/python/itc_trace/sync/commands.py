"""Traces the programs of its own folder that a program runs by `subprocess` or `os.posix_spawn`.

Each is a task that the program starts and joins.
"""

from __future__ import annotations

import json
import os
import shutil
import sys
from collections.abc import Sequence
from types import ModuleType
from typing import Any

from ..model.file_names import real_path, working_folder
from ..record import following
from .base import Patches
from .later import once_imported
from .starts import spawned

FLAGS_WITH_A_WORD = ("-X", "-W", "--check-hash-based-pycs")
PACKAGE = os.path.dirname(os.path.dirname(os.path.dirname(os.path.abspath(__file__))))
_WITHOUT_VARIABLES = set("EI")


def put(patches: Patches) -> None:
    for name in ("posix_spawn", "posix_spawnp"):
        if hasattr(os, name):
            patches.wrap(os, name, _spawn)
    once_imported("subprocess", lambda module: _put_popen(patches, module))


def _put_popen(patches: Patches, module: ModuleType) -> None:
    kind: Any = vars(module)["Popen"]
    patches.wrap(kind, "__init__", _begin)
    for name in ("wait", "poll", "communicate"):
        patches.wrap(kind, name, _ended)


def _begin(original: Any) -> Any:
    def __init__(self: Any, args: Any, *words: Any, **named: Any) -> None:
        begun = None if words else _begun(args, named)
        if begun is None:
            original(self, args, *words, **named)
            return
        try:
            original(self, _traced(args, begun.process), **{**named, "env": _with_package(named.get("env"))})
        except BaseException:
            following.did_not_start(begun)
            raise
        self._itc_line = begun.line

    return __init__


def _spawn(original: Any) -> Any:
    def posix_spawn(path: Any, argv: Any, env: Any, **named: Any) -> int:
        words = [path, *argv[1:]] if isinstance(argv, (list, tuple)) and argv else []
        begun = _begun_for(words, working_folder(), "posix_spawn") if words and following.is_on() else None
        if begun is None:
            return int(original(path, argv, env, **named))
        try:
            traced = [argv[0], *_traced(words, begun.process)[1:]]
            number = int(original(path, traced, _with_package(env), **named))
        except BaseException:
            following.did_not_start(begun)
            raise
        spawned(number, begun.line)
        return number

    return posix_spawn


def _begun(args: Any, named: dict[str, Any]) -> following.Begun | None:
    """What is begun for the command, if it is one of Python that can be traced."""
    is_by_shell = isinstance(args, (str, bytes, os.PathLike)) or named.get("shell")
    if is_by_shell or named.get("executable") is not None or not following.is_on():
        return None
    return _begun_for(args, named.get("cwd") or working_folder(), "subprocess")


def _begun_for(words: Any, folder: Any, how: str) -> following.Begun | None:
    try:
        place = _place_of_program(words)
        program = following.program_of(words, os.fspath(folder))
    except (TypeError, ValueError):
        return None
    if place is None or program is None:
        return None
    return following.begin(f"{os.path.splitext(os.path.basename(program))[0]}#", how, 4 if how == "subprocess" else 3)


def _place_of_program(words: Sequence[Any]) -> int | None:
    """Where the program stands in a command that runs it by this Python. None if it is run in another way."""
    found = shutil.which(os.fsdecode(words[0])) if words else None
    if found is None or real_path(found) != real_path(sys.executable):
        return None
    place = 1
    while place < len(words) and os.fsdecode(words[place]).startswith("-") and words[place] != "-m":
        flag = os.fsdecode(words[place])
        if flag in ("-", "-c") or _leaves_out_variables(flag):
            return None
        place += 2 if flag in FLAGS_WITH_A_WORD else 1
    return place if place < len(words) else None


def _leaves_out_variables(flag: str) -> bool:
    return not flag.startswith("--") and bool(_WITHOUT_VARIABLES & set(flag)) and flag not in FLAGS_WITH_A_WORD


def _traced(words: Sequence[Any], process: following.ChildProcess) -> list[Any]:
    place = _place_of_program(words)
    configuration = {
        "port": process.port, "tenant": process.tenant, "journal": process.journal, "process": None,
        "host": process.host, "watched": process.packages, "told": os.devnull, "seed": None, "child": process,
    }
    return [*words[:place], "-m", "itc_trace.cli.launch", json.dumps(configuration), *words[place:]]


def _with_package(environment: Any) -> dict[str, str]:
    """The program's process has to find the package, whatever its environment is."""
    told = dict(os.environ if environment is None else environment)
    paths = os.fsdecode(told.get("PYTHONPATH", "")).split(os.pathsep)
    if PACKAGE not in paths:
        told["PYTHONPATH"] = os.pathsep.join(path for path in (PACKAGE, *paths) if path)
    return told


def _ended(original: Any) -> Any:
    def method(self: Any, *words: Any, **named: Any) -> Any:
        told = original(self, *words, **named)
        if self.returncode is not None:
            following.has_ended(self.__dict__.get("_itc_line"))
        return told

    return method
