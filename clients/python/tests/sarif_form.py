"""What SARIF 2.1.0 requires of the objects that the package writes, checked by hand: properties, types and references."""

from __future__ import annotations

import re
from collections.abc import Iterator
from typing import Any

LEVELS = ("none", "note", "warning", "error")
COLUMN_KINDS = ("utf16CodeUnits", "unicodeCodePoints")
LINK = re.compile(r"\]\(([^)]*)\)")
"""The end of a link from a message to a place, behind the text of the link."""
WHOLE_LINK = re.compile(r"\[((?:[^\[\]\\]|\\[\[\]\\])*)\]\(\d+\)")
"""A link, in whose text a bracket and a backslash stand behind a backslash."""
NEEDED: dict[str, tuple[dict[str, type], tuple[str, ...]]] = {
    "log": ({"version": str, "runs": list, "$schema": str}, ("version", "runs")),
    "run": (
        {
            "tool": dict, "invocations": list, "results": list, "originalUriBaseIds": dict, "columnKind": str, "artifacts": list,
            "automationDetails": dict,
        },
        ("tool",),
    ),
    "tool": ({"driver": dict}, ("driver",)),
    "driver": ({"name": str, "rules": list, "version": str, "informationUri": str}, ("name",)),
    "rule": ({"id": str, "name": str, "shortDescription": dict, "defaultConfiguration": dict}, ("id",)),
    "invocation": ({"executionSuccessful": bool, "toolExecutionNotifications": list}, ("executionSuccessful",)),
    "notification": ({"message": dict, "level": str}, ("message",)),
    "message": ({"text": str}, ("text",)),
    "result": (
        {
            "ruleId": str, "ruleIndex": int, "level": str, "message": dict, "locations": list, "relatedLocations": list,
            "partialFingerprints": dict, "occurrenceCount": int, "suppressions": list, "properties": dict,
        },
        ("message",),
    ),
    "location": ({"id": int, "message": dict, "physicalLocation": dict, "logicalLocations": list}, ()),
    "physicalLocation": ({"artifactLocation": dict, "region": dict}, ("artifactLocation",)),
    "artifactLocation": ({"uri": str, "uriBaseId": str}, ("uri",)),
    "base": ({"uri": str}, ()),
    "region": ({"startLine": int, "snippet": dict}, ("startLine",)),
    "suppression": ({"kind": str}, ("kind",)),
    "logicalLocation": ({"fullyQualifiedName": str}, ()),
}
"""For each kind of object its properties with their types, and those that have to be there."""


def faults(told: Any) -> list[str]:
    """What is wrong with a log of SARIF."""
    return list(_log(told))


def _object(kind: str, told: Any) -> Iterator[str]:
    known, needed = NEEDED[kind]
    if not isinstance(told, dict):
        yield f"{kind} is no object"
        return
    for name, value in told.items():
        if name not in known:
            yield f"{kind} has no property {name}"
        elif not isinstance(value, known[name]) or known[name] is int and isinstance(value, bool):
            yield f"{name} of {kind} is {type(value).__name__}"
    for name in needed:
        if name not in told:
            yield f"{kind} has no {name}"


def _log(told: Any) -> Iterator[str]:
    yield from _object("log", told)
    if told["version"] != "2.1.0" or not told["$schema"].endswith("/sarif-2.1.0.json"):
        yield "the version is another one"
    for run in told["runs"]:
        yield from _object("run", run)
        yield from _object("tool", run["tool"])
        yield from _driver(run["tool"]["driver"])
        if run["columnKind"] not in COLUMN_KINDS:
            yield f"{run['columnKind']} is no kind of columns"
        for invocation in run["invocations"]:
            yield from _object("invocation", invocation)
            for one in invocation.get("toolExecutionNotifications", []):
                yield from _object("notification", one)
                yield from _message(one["message"])
                yield from _level(one)
        for base in run["originalUriBaseIds"].values():
            yield from _object("base", base)
            if "uri" in base and (not base["uri"].startswith("file:///") or not base["uri"].endswith("/")):
                yield "a base ends with a slash, and is a whole URI"
        for result in run["results"]:
            yield from _result(result, run)


def _driver(driver: Any) -> Iterator[str]:
    yield from _object("driver", driver)
    for rule in driver["rules"]:
        yield from _object("rule", rule)
        yield from _object("message", rule["shortDescription"])
        yield from _level(rule["defaultConfiguration"])
    if len({rule["id"] for rule in driver["rules"]}) != len(driver["rules"]):
        yield "two rules have one id"


def _level(told: Any) -> Iterator[str]:
    if told.get("level") not in LEVELS:
        yield f"{told.get('level')} is no level"


def _result(result: Any, run: Any) -> Iterator[str]:
    yield from _object("result", result)
    yield from _message(result["message"])
    yield from _level(result)
    if run["tool"]["driver"]["rules"][result["ruleIndex"]]["id"] != result["ruleId"]:
        yield "the index is of another rule"
    if result["occurrenceCount"] < 1:
        yield "an occurrence is counted from 1"
    for name, value in result["partialFingerprints"].items():
        if not isinstance(value, str) or "/" not in name:
            yield "a fingerprint is a text, and its name has a version"
    for one in result.get("suppressions", []):
        yield from _object("suppression", one)
        if one["kind"] not in ("inSource", "external"):
            yield f"{one['kind']} is no kind of suppression"
    places = [*result["locations"], *result["relatedLocations"]]
    for place in places:
        yield from _location(place, run)
    for listed in (result["relatedLocations"], result.get("suppressions", [])):
        if any(one in listed[:number] for number, one in enumerate(listed)):
            yield "two are the same where each is another one"
    numbers = [place["id"] for place in places if "id" in place]
    if any(number < 1 for number in numbers):
        yield "places are counted from 1"
    if len(set(numbers)) != len(numbers):
        yield "two places have one id"
    yield from (f"the message names place {number}" for number in _named(result["message"]["text"]) if number not in numbers)


def _message(told: Any) -> Iterator[str]:
    yield from _object("message", told)
    if re.search(r"[\0-\x08\x0a-\x1f\x7f-\x9f\u200e\u200f\u2028-\u202e]", told["text"]):
        yield "a message has what steers a terminal"
    if re.search(r"[{}]", told["text"].replace("{{", "").replace("}}", "")):
        yield "a message has a brace that something is put into"
    if len(WHOLE_LINK.findall(told["text"])) != len(LINK.findall(told["text"])):
        yield "the text of a link has a bracket"


def _named(message: str) -> Iterator[int]:
    for number in LINK.findall(message):
        yield int(number) if number.isdecimal() else -1


def _location(place: Any, run: Any) -> Iterator[str]:
    yield from _object("location", place)
    yield from _message(place["message"])
    for one in place.get("logicalLocations", []):
        yield from _object("logicalLocation", one)
    physical = place.get("physicalLocation")
    if physical is None:
        return
    yield from _object("physicalLocation", physical)
    yield from _object("artifactLocation", physical["artifactLocation"])
    base, uri = physical["artifactLocation"].get("uriBaseId"), physical["artifactLocation"]["uri"]
    if base is not None and (base not in run["originalUriBaseIds"] or uri.startswith(("/", "file:"))):
        yield f"{uri} is not of the base {base}"
    if base is None and not uri.startswith("file:///"):
        yield f"{uri} is no whole URI"
    if any(letter in uri for letter in " <>\"{}|\\^`[]#?") or not uri.isascii():
        yield f"{uri} has letters that a URI writes by their numbers"
    if "region" in physical:
        yield from _object("region", physical["region"])
        if physical["region"]["startLine"] < 1:
            yield "lines are counted from 1"
