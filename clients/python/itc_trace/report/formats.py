"""The formats that a report is written in."""

from __future__ import annotations

from collections.abc import Callable

from .as_json import json_text
from .github import github
from .report import Report
from .sarif import sarif

FORMATS: dict[str, Callable[[Report], str]] = {"json": json_text, "sarif": sarif, "github": github}
"""By the option that asks for it, what writes it."""
