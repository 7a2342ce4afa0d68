"""Where a process reports to, as whoever starts it says in its environment."""

from __future__ import annotations

import itertools
import os
from collections.abc import Mapping
from typing import NamedTuple

from .faults import Fault

PORT, TENANT, PROCESS, JOURNAL = "ITC_TRACE_PORT", "ITC_TRACE_TENANT", "ITC_TRACE_PROCESS", "ITC_TRACE_JOURNAL"
PARTS = "ITC_TRACE_PARTS"
"""Says that the relay divides a long run into parts, for a client that knows of them."""
ALONE = "ITC_TRACE_ALONE"
"""Says that the process reports beside no other one, so that another machine has no use for a header of the trace."""
SILENCED = "ITC_TRACE_SILENCED"
"""Says that races may be silenced by a file that the process does not read, so that it fails no test by one."""
OWN_TENANT = "trace"
MOST_PORT = 65535


class Reporting(NamedTuple):
    """The collector's port and tenant, the name of the process, and where its journal is kept."""

    port: int
    tenant: str = OWN_TENANT
    process: str | None = None
    journal: str | None = None

    def variables(self) -> dict[str, str]:
        """What says so in an environment."""
        named = {PORT: str(self.port), TENANT: self.tenant, PROCESS: self.process, JOURNAL: self.journal}
        return {name: value for name, value in named.items() if value is not None}


def reporting(environment: Mapping[str, str] = os.environ) -> Reporting | None:
    """What the environment says. None if it names no port."""
    port = environment.get(PORT)
    if not port:
        return None
    if not port.isascii() or not port.isdigit() or not 1 <= int(port) <= MOST_PORT:
        raise Fault(f"{PORT} is {port}, which is no port: set it to a number from 1 to {MOST_PORT}")
    journal = environment.get(JOURNAL)
    return Reporting(int(port), environment.get(TENANT) or OWN_TENANT, environment.get(PROCESS) or None,
                     fresh_journal(journal) if journal else None)


def fresh_journal(path: str) -> str:
    """A file that was not there, which is made.

    A process that is started again does not overwrite its first journal.
    """
    for number in itertools.count(1):
        name = path if number == 1 else f"{path}.{number}"
        try:
            os.close(os.open(name, os.O_CREAT | os.O_EXCL | os.O_WRONLY, 0o666))
            return name
        except FileExistsError:
            continue
    raise AssertionError("some name is free")
