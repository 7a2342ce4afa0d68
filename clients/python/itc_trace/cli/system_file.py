"""The file that describes a system: its processes, and in which order they are started."""

from __future__ import annotations

import os
import re
import tomllib
from collections.abc import Iterator
from dataclasses import dataclass, field
from graphlib import CycleError, TopologicalSorter
from typing import Any

from ..record.environment import MOST_PORT, OWN_TENANT
from ..record.faults import Fault
from .parser import TENANT

NEVER_EMPTY = ("ready", "tenant", "export", "picture")
NAME = re.compile(r"[A-Za-z0-9][A-Za-z0-9_-]{0,63}")


@dataclass
class Described:
    """A process, as the file describes it."""

    name: str
    command: list[str]
    directory: str
    ready: str | None = None
    port: int | None = None
    after: list[str] = field(default_factory=list)
    environment: dict[str, str] = field(default_factory=dict)
    is_traced: bool = True
    is_service: bool = False
    """Whether it is ended once all that are no services have ended."""
    watched: list[str] | None = None


@dataclass
class System:
    """All processes, and where the trace is kept."""

    processes: list[Described]
    tenant: str = OWN_TENANT
    export: str | None = None
    picture: str | None = None
    name: str = ""
    """The name of the file that describes it, by which its picture is titled."""

    def in_order(self) -> Iterator[Described]:
        """The processes, each after those that it has to come after, and else as they stand in the file."""
        left = list(self.processes)
        begun: set[str] = set()
        while left:
            process = next(process for process in left if begun.issuperset(process.after))
            left.remove(process)
            begun.add(process.name)
            yield process


def read_system(file: str) -> System:
    """The system that a file describes. A fault says what is wrong in it."""
    try:
        with open(file, "rb") as text:
            told = tomllib.load(text)
    except OSError as error:
        raise Fault(f"{file} cannot be read: {error.strerror}") from error
    except UnicodeDecodeError as error:
        raise Fault(f"{file} is no TOML: it is no text") from error
    except tomllib.TOMLDecodeError as error:
        hint = f": if it is a program, run it by `run {file}`" if file.endswith(".py") else ""
        raise Fault(f"{file} is no TOML: {error}{hint}") from error
    reading = _Reading(file)
    processes = reading.table(told, "process", "the file")
    folder = os.path.dirname(os.path.abspath(file))
    export, picture = (_path(folder, reading.text(told, key, "the file")) for key in ("export", "picture"))
    system = System(
        [_described(reading, name, one, folder) for name, one in processes.items()],
        reading.text(told, "tenant", "the file") or OWN_TENANT, export, picture, os.path.basename(file),
    )
    reading.nothing_else(told, ("process", "tenant", "export", "picture"), "the file")
    if not TENANT.fullmatch(system.tenant):
        raise Fault(f"{file}: the file: tenant is {system.tenant!r}: it has 1 to 24 letters, digits or _")
    reading.check_order(system.processes)
    return system


def _path(folder: str, name: str | None) -> str | None:
    return None if name is None else os.path.join(folder, name)


KEYS_OF_PROCESS = (
    "command", "ready", "port", "after", "directory", "environment", "traced", "service", "watch", "watch_nothing",
)


def _described(reading: _Reading, name: str, told: Any, folder: str) -> Described:
    where = f"process {name}"
    if not NAME.fullmatch(name):
        raise Fault(f"{reading.file}: {where}: a name has letters, digits, _ and -, and at most 64 of them")
    if not isinstance(told, dict):
        raise Fault(f"{reading.file}: {where} is no table")
    reading.nothing_else(told, KEYS_OF_PROCESS, where)
    command = reading.texts(told, "command", where)
    if not command:
        raise Fault(f'{reading.file}: {where} has no command: give it one, as command = ["python3", "{name}.py"]')
    if any("\0" in word for word in command):
        raise Fault(f"{reading.file}: {where}: command has a zero byte, which no word can have")
    for one, other in (("ready", "port"), ("watch", "watch_nothing")):
        if told.get(one) and told.get(other):
            raise Fault(f"{reading.file}: {where}: {one} and {other} cannot both be given")
    port = told.get("port")
    if port is not None and (not isinstance(port, int) or isinstance(port, bool) or not 1 <= port <= MOST_PORT):
        raise Fault(f"{reading.file}: {where}: port is a number from 1 to {MOST_PORT}")
    environment = reading.table(told, "environment", where) if "environment" in told else {}
    return Described(
        name, command, os.path.join(folder, reading.text(told, "directory", where) or ""),
        reading.text(told, "ready", where), port,
        reading.texts(told, "after", where), {key: reading.text(environment, key, where) or "" for key in environment},
        reading.flag(told, "traced", where, True), reading.flag(told, "service", where, False),
        None if reading.flag(told, "watch_nothing", where, False) else reading.texts(told, "watch", where),
    )


class _Reading:
    """Reads values of a file, and says where one is of another type."""

    def __init__(self, file: str) -> None:
        self.file = file

    def text(self, told: dict[str, Any], key: str, where: str) -> str | None:
        value = told.get(key)
        if value is not None and not isinstance(value, str):
            raise Fault(f"{self.file}: {where}: {key} is a text")
        if value == "" and key in NEVER_EMPTY:
            raise Fault(f"{self.file}: {where}: {key} is empty")
        return value

    def texts(self, told: dict[str, Any], key: str, where: str) -> list[str]:
        value = told.get(key, [])
        if not isinstance(value, list) or not all(isinstance(one, str) for one in value):
            raise Fault(f"{self.file}: {where}: {key} is a list of texts")
        return value

    def flag(self, told: dict[str, Any], key: str, where: str, otherwise: bool) -> bool:
        value = told.get(key, otherwise)
        if not isinstance(value, bool):
            raise Fault(f"{self.file}: {where}: {key} is true or false")
        return value

    def table(self, told: dict[str, Any], key: str, where: str) -> dict[str, Any]:
        value = told.get(key, {})
        if key == "process" and (not isinstance(value, dict) or not value):
            raise Fault(f"{self.file}: {where} has no table {key}: begin it by a line [process.NAME]")
        if not isinstance(value, dict):
            raise Fault(f'{self.file}: {where}: {key} is a table, as {key} = {{ NAME = "value" }}')
        return value

    def nothing_else(self, told: dict[str, Any], keys: tuple[str, ...], where: str) -> None:
        for key in told:
            if key not in keys:
                raise Fault(f"{self.file}: {where}: there is no key {key}: the keys are {', '.join(keys)}")

    def check_order(self, processes: list[Described]) -> None:
        names = {process.name for process in processes}
        for process in processes:
            for name in process.after:
                if name not in names:
                    raise Fault(
                        f"{self.file}: process {process.name} comes after {name}, and there is no process of that name"
                    )
        try:
            TopologicalSorter({process.name: process.after for process in processes}).prepare()
        except CycleError as error:
            raise Fault(f"{self.file}: processes come after one another: {', '.join(error.args[1])}") from error
