"""Texts as a person is shown them: no name of a file ends a line, steers a terminal, or turns the order of letters."""

from __future__ import annotations

import os
import re
from urllib.parse import quote

UNSEEN = re.compile("[\0-\x08\x0a-\x1f\x7f-\x9f\u061c\u200e\u200f\u2028-\u202e\u2066-\u2069\ud800-\udfff]")
"""Controls but for the tab, marks that turn the direction, and what stands for a byte that is no letter."""


def readable(text: str) -> str:
    """The text with what cannot be seen as Python writes it in a literal."""
    return UNSEEN.sub(lambda found: repr(found[0])[1:-1], text)


def uri_of(path: str) -> str:
    """A path as it stands in a link, whatever its bytes are."""
    return quote(os.fsencode(path))
