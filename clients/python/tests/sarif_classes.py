"""Makes the objects of `sarif_om` of a log of SARIF on standard input. Its classes were made of the published schema.

A line says what is wrong: a property that a class does not have, or one that is needed and is not there.
"""

from __future__ import annotations

import json
import sys
from collections.abc import Iterator
from typing import Any

import sarif_om

CLASSES = {
    "runs": "Run", "tool": "Tool", "driver": "ToolComponent", "rules": "ReportingDescriptor", "shortDescription": "MultiformatMessageString",
    "defaultConfiguration": "ReportingConfiguration", "invocations": "Invocation", "toolExecutionNotifications": "Notification",
    "message": "Message", "results": "Result", "locations": "Location", "relatedLocations": "Location", "physicalLocation": "PhysicalLocation",
    "artifactLocation": "ArtifactLocation", "region": "Region", "snippet": "ArtifactContent", "logicalLocations": "LogicalLocation",
    "suppressions": "Suppression",
}
TABLES = {"originalUriBaseIds": "ArtifactLocation"}
"""Those whose values are objects, by names of the writer."""
FREE = {"partialFingerprints", "properties"}
"""Those that have what a writer likes."""


def faults(kind: str, told: Any) -> Iterator[str]:
    made = getattr(sarif_om, kind)
    known = {one.metadata["schema_property_name"]: one.name for one in made.__attrs_attrs__}
    yield from (f"{kind} has no {key}" for key in told if key not in known)
    try:
        made(**{known[key]: value for key, value in told.items() if key in known})
    except TypeError as fault:
        yield f"{kind}: {fault}"
    for key, value in told.items():
        if key in TABLES:
            for one in value.values():
                yield from faults(TABLES[key], one)
        elif key in CLASSES:
            for one in value if isinstance(value, list) else [value]:
                yield from faults(CLASSES[key], one)
        elif isinstance(value, (dict, list)) and key not in FREE:
            yield f"{key} of {kind} is not looked into"


if __name__ == "__main__":
    print("\n".join(faults("SarifLog", json.load(sys.stdin))))
