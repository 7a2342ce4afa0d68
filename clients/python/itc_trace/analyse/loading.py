"""Loads an export into a collector of its own, which then answers for it."""

from __future__ import annotations

import contextlib
import subprocess
from collections.abc import Iterator

from ..record.collector import Collector, find_program
from ..record.faults import Fault
from ..session import Session

TENANT = "trace"


@contextlib.contextmanager
def loaded(export: str) -> Iterator[Collector]:
    """A collector that has the trace of an export as its tenant `trace`."""
    requests = _requests(export)
    with Collector(TENANT) as collector:
        with Session(TENANT, collector.port) as session:
            for request, reply in zip(requests, session.ask(requests)):
                if not reply.startswith("201 "):
                    raise Fault(f"{export} cannot be loaded: {request}: {reply}")
        yield collector


def _requests(export: str) -> list[str]:
    """The requests that made the trace, as the collector's program reads them from the export."""
    try:
        with open(export, "rb") as given:
            read = subprocess.run([find_program(), "load", TENANT], stdin=given, capture_output=True, check=False)
    except OSError as error:
        raise Fault(f"{export} cannot be read: {error.strerror}: name an export, or a tenant with --port") from error
    if read.returncode and not read.stderr:
        raise Fault(f"{find_program()} does not serve as a collector: set ITC_TRACE to the path of itc_trace")
    if read.returncode:
        raise Fault(f"{export} is no export: {_reason(read.stderr)}: name the FILE of --export")
    return [line.partition(" ")[2] for line in read.stdout.decode("ascii").splitlines()]


def _reason(said: bytes) -> str:
    words = said.decode("ascii", "replace").split()
    if words[:2] == ["itc_trace:", "no"] and len(words) == 4:
        return f"line {words[2]} is faulty (reason {words[3]} of itc_trace load)"
    return " ".join(words[1:]) or "it cannot be loaded"
