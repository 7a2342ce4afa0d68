"""Races that are known already. A baseline has the identity of each, which stays if other lines move it."""

from __future__ import annotations

import json
from collections.abc import Iterable
from dataclasses import asdict
from typing import Any, TypeVar

from ..model.finding import Known, KnownSide
from ..record.faults import Fault
from ..record.whole_file import replacing

VERSION = 1
Kind = TypeVar("Kind")


class _OtherVersion(Exception):
    """The version of a baseline is not the one that is read here."""


def read_baseline(file: str) -> list[Known]:
    """The races of a baseline. A fault says what is wrong with the file."""
    try:
        with open(file, encoding="utf-8-sig") as given:
            return _races(json.load(given))
    except FileNotFoundError as fault:
        raise Fault(f"{file} cannot be read: {fault.strerror}: --write-baseline {file} makes it") from fault
    except OSError as fault:
        raise Fault(f"{file} cannot be read: {fault.strerror}") from fault
    except _OtherVersion as fault:
        advice = f"--write-baseline {file} makes it anew"
        raise Fault(f"{file} is a baseline of version {fault}, and not of {VERSION}: {advice}") from fault
    except (ValueError, TypeError, KeyError, RecursionError) as fault:
        raise Fault(f"{file} is no baseline: --write-baseline {file} makes one") from fault


def _races(told: Any) -> list[Known]:
    version = _of_type(int, told["version"])
    if version != VERSION:
        raise _OtherVersion(version)
    return [
        Known(_of_type(str, one["thing"]), tuple(map(_side, _of_type(list, one["sides"]))))
        for one in _of_type(list, told["races"])
    ]


def _side(told: Any) -> KnownSide:
    return KnownSide(**{key: _of_type(str, value) for key, value in _of_type(dict, told).items()})


def _of_type(kind: type[Kind], value: Any) -> Kind:
    if type(value) is not kind:
        raise TypeError(f"{value!r} is no {kind.__name__}")
    return value


def write_baseline(file: str, races: Iterable[Known]) -> None:
    """A race an entry, in an order that is the same for the same races."""
    entries = [{"id": one.identity, **asdict(one)} for one in sorted(races, key=lambda one: (one.thing, one.sides))]
    with replacing(file) as new, open(new, "w", encoding="utf-8", errors="backslashreplace") as written:
        written.write(json.dumps({"version": VERSION, "races": entries}, indent=1, ensure_ascii=False) + "\n")
