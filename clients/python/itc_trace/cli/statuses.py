"""The status of a command, which is that of the verdict or the program's own, and which of them it is."""

from __future__ import annotations

import json
import os

from ..model.verdict import Verdict
from ..record.faults import WORDS_REFUSED

OWN_STATUSES = frozenset((Verdict.RACES, Verdict.INCOMPLETE, WORDS_REFUSED))
"""Those that mean something else if they are not the program's own."""


def own_status(verdict: Verdict, status: int) -> str:
    """What the last line says of a status that is the program's own."""
    return f"; status {status} is the program's own" if not verdict and status else ""


def forget_status(file: str | None) -> None:
    """No file of an earlier run is there if this one does not come to its end."""
    if file is not None and os.path.exists(file):
        os.unlink(file)


def keep_status(file: str | None, verdict: Verdict, own: int | None) -> int:
    """The status of the command.

    It is written to the file as a whole, with the verdict and the program's own status.
    """
    status = int(verdict) or own or 0
    if file is not None:
        with open(f"{file}.new", "w", encoding="ascii") as written:
            written.write(json.dumps({"verdict": verdict.name, "program": own, "status": status}) + "\n")
        os.replace(f"{file}.new", file)
    return status
