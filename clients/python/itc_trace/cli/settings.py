"""What a project sets for all its runs: the table `[tool.itc_trace]` of its pyproject.toml. Typed words win over it."""

from __future__ import annotations

import argparse
import difflib
import os
import re
import tomllib
from collections.abc import Callable, Iterator
from dataclasses import dataclass, field
from pathlib import Path
from typing import Any

from ..record.faults import Fault
from ..report.formats import FORMATS

FILE = "pyproject.toml"
TABLE = "itc_trace"
SPELLINGS = ("itctrace", "itctraces")
"""What the table is called without its marks, also if somebody means it and writes it otherwise."""
FAIL_ON = ("race", "possible")
MOST_RUNS = 10_000


@dataclass
class Settings:
    """What is set. Files are named as they are found from the current folder."""

    watch: list[str] = field(default_factory=list)
    exclude: list[str] = field(default_factory=list)
    benign: list[str] = field(default_factory=list)
    baseline: str | None = None
    fail_on: str = "race"
    runs: int = 1
    confirm: bool = False
    formats: dict[str, str] = field(default_factory=dict)

    def fill(self, words: argparse.Namespace) -> None:
        """Gives the words of a command what was not typed. A command takes what it has an option for."""
        typed = vars(words)
        for name, value in vars(self).items():
            if name in typed and typed[name] in (None, []):
                setattr(words, name, value)
        if typed.get("watch_nothing"):
            words.watch = []


def settings_here(folder: str | None = None) -> Settings:
    """The settings of the nearest pyproject.toml, of this folder or one above it."""
    for one in (Path(folder or os.getcwd()).absolute() / "here").parents:
        file = one / FILE
        if file.is_file():
            return read_settings(file)
    return Settings()


def read_settings(file: Path) -> Settings:
    name = os.path.relpath(file)
    try:
        with open(file, "rb") as text:
            told = tomllib.load(text)
    except OSError as fault:
        raise Fault(f"{name} cannot be read: {fault.strerror}") from fault
    except (tomllib.TOMLDecodeError, UnicodeDecodeError, RecursionError) as fault:
        raise Fault(f"{name} is no TOML: {fault}") from fault
    tools = told.get("tool", {})
    tools = tools if isinstance(tools, dict) else {}
    reading = _Reading(name, file.parent)
    for other in tools:
        if other != TABLE and re.sub("[-_.]", "", other).lower() in SPELLINGS:
            raise Fault(f"{name}: there is no table [tool.{other}]: did you mean [tool.{TABLE}]?")
    table = tools.get(TABLE, {})
    if not isinstance(table, dict):
        raise reading.fault("it is no table")
    return Settings(**dict(reading.values(table)))


class _Reading:
    """Reads the values, and says where one is of another type."""

    def __init__(self, name: str, folder: Path) -> None:
        self._name = name
        self._folder = folder

    def values(self, table: dict[str, Any]) -> Iterator[tuple[str, Any]]:
        readers: dict[str, Callable[[str, Any], Any]] = {
            "watch": self._texts, "exclude": self._texts, "benign": self._files, "baseline": self._file,
            "fail_on": self._fail_on, "runs": self._runs, "confirm": self._switch, "formats": self._formats,
        }
        for key, value in table.items():
            if key not in readers:
                like = difflib.get_close_matches(key, readers, 1)
                meant = f"did you mean {like[0]}?" if like else f"the keys are {', '.join(readers)}"
                raise self.fault(f"there is no key {key}: {meant}")
            yield key, readers[key](key, value)

    def fault(self, why: str) -> Fault:
        return Fault(f"{self._name}: [tool.{TABLE}]: {why}")

    def _text(self, key: str, value: Any) -> str:
        if not isinstance(value, str) or not value:
            raise self.fault(f"{key} is a text that is not empty")
        return value

    def _texts(self, key: str, value: Any) -> list[str]:
        if not isinstance(value, list) or not all(isinstance(one, str) and one for one in value):
            raise self.fault(f"{key} is a list of texts that are not empty")
        return value

    def _file(self, key: str, value: Any) -> str:
        """The file by its name from the current folder."""
        return os.path.relpath(self._folder / self._text(key, value))

    def _files(self, key: str, value: Any) -> list[str]:
        return [self._file(key, one) for one in ([value] if isinstance(value, str) else self._texts(key, value))]

    def _fail_on(self, key: str, value: Any) -> str:
        if value not in FAIL_ON:
            raise self.fault(f"{key} is {value!r}, which is none of {', '.join(map(repr, FAIL_ON))}")
        return str(value)

    def _runs(self, key: str, value: Any) -> int:
        if not isinstance(value, int) or isinstance(value, bool) or not 1 <= value <= MOST_RUNS:
            raise self.fault(f"{key} is a number from 1 to {MOST_RUNS}")
        return value

    def _switch(self, key: str, value: Any) -> bool:
        if not isinstance(value, bool):
            raise self.fault(f"{key} is true or false")
        return value

    def _formats(self, key: str, value: Any) -> dict[str, str]:
        if not isinstance(value, dict):
            raise self.fault(f'{key} is a table, as {{ sarif = "races.sarif", github = true }}')
        found: dict[str, str] = {}
        for name, file in value.items():
            if name not in FORMATS:
                raise self.fault(f"{key} has no {name}: the formats are {', '.join(FORMATS)}")
            if name == "github":
                found |= {name: "-"} if self._switch(f"{key}.{name}", file) else {}
            else:
                found[name] = file if file == "-" else self._file(f"{key}.{name}", file)
        return found
