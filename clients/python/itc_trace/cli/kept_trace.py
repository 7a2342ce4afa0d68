"""The races of a trace that was kept: of an export, of a run in parts, or of a tenant of a collector."""

from __future__ import annotations

import argparse
import os
import sys
import tempfile
from dataclasses import dataclass, field

from ..analyse.benign import Looking
from ..analyse.loading import TENANT as LOADED
from ..analyse.loading import loaded
from ..analyse.parts import is_in_parts, races_of_parts
from ..analyse.progress import Bar
from ..analyse.races import Races
from ..analyse.seeing import check_trace, lines_of, races_seen
from ..record.collector import HOST
from ..record.faults import Fault, look
from ..record.journal import NoJournal, read_whole
from .output_files import check_outputs
from .parser import tenant
from .run import draw_parts, draw_tenant

PAGE_BEGINS = b"<!"
LINE_BEGINS = b'{"event'
"""So begins the first line of an export, be it a header or an event."""
MOST_OF_BEGIN = 1 << 17


@dataclass
class KeptTrace:
    """A trace and its journals, as they were typed for a command."""

    command: str
    trace: str
    """An export, or the tenant at a port."""
    journals: list[str]
    port: int | None = None
    host: str = HOST
    picture: str | None = None
    outputs: list[tuple[str, str | None]] = field(default_factory=list)
    """The files that the command writes, each with its option."""
    inputs: list[tuple[str, str]] = field(default_factory=list)

    def races(self, looking: Looking) -> tuple[Races, str | None]:
        """The races, and the picture if it was drawn."""
        begin = self._begin_of_trace() if self.port is None else b""
        divided = self._journal_in_parts()
        if divided is not None:
            self._check_outputs(divided)
            return self._races_of_parts(divided, looking)
        if not self.journals and self.port is None and os.path.isfile(f"{self.trace}.journal"):
            self.journals = [f"{self.trace}.journal"]
        if not self.journals and self.port is None and not begin.startswith(LINE_BEGINS):
            raise Fault(f"{self.trace} is no export: name the FILE of --export")
        if not self.journals:
            raise Fault(
                f"{self.command} wants the journal of each process, behind {self.trace}: "
                "`run --export` and `run --journal` write it"
            )
        self._check_outputs()
        if self.port is None:
            with loaded(self.trace) as collector:
                return self._races_of(LOADED, collector.port, HOST, self.trace, looking)
        look(_tenant(self.trace), self.port, self.host)
        name = f"tenant {self.trace} at port {self.port}"
        return self._races_of(self.trace, self.port, self.host, name, looking)

    def _begin_of_trace(self) -> bytes:
        """What its file begins with. Of a page or a journal it says what it is."""
        try:
            with open(self.trace, "rb") as file:
                begin = file.read(MOST_OF_BEGIN)
        except OSError as error:
            advice = "name an export, or a tenant with --port"
            raise Fault(f"{self.trace} cannot be read: {error.strerror}: {advice}") from error
        if begin.startswith(PAGE_BEGINS):
            raise Fault(f"{self.trace} is the page of a picture: name the FILE of --export")
        if _is_journal(begin) and not is_in_parts(self.trace):
            export = self.trace.removesuffix(".journal")
            raise Fault(f"{self.trace} is a journal: name the export that was kept with it first, as {export}")
        return begin

    def _check_outputs(self, *further: str) -> None:
        """Finds what keeps the command from writing its files."""
        read = [(file, file) for file in (self.trace, *self.journals, *further)]
        check_outputs((("--picture", self.picture), *self.outputs), [*read, *self.inputs])

    def _journal_in_parts(self) -> str | None:
        """The journal of a run in parts, if it is that: given for the export, behind it,
        or beside the export that is named."""
        if self.port is not None or len(self.journals) > 1:
            return None
        given = self.journals or [self.trace, f"{self.trace}.journal"]
        return next((one for one in given if os.path.isfile(one) and is_in_parts(one)), None)

    def _races_of(self, tenant: str, port: int, host: str, trace: str, looking: Looking) -> tuple[Races, str | None]:
        lines = list(lines_of(self.journals))
        check_trace(tenant, port, lines, host, trace)
        found = races_seen(tenant, port, lines, host, looking, Bar(sys.stderr))
        is_drawn = self.picture is not None and draw_tenant(tenant, port, host, lines, self.picture, found)
        return found, self.picture if is_drawn else None

    def _races_of_parts(self, journal: str, looking: Looking) -> tuple[Races, str | None]:
        """The races of a run in parts, whose exports are made anew for a picture."""
        with tempfile.TemporaryDirectory(prefix="itc_trace_") as work:
            parts = None if self.picture is None else os.path.join(work, "export")
            found = races_of_parts(journal, looking, Bar(sys.stderr), None, parts)
            return found, draw_parts(parts, self.picture, found, "")


def _is_journal(begin: bytes) -> bool:
    """Whether a file that begins so has a journal's first line."""
    try:
        return read_whole([begin.split(b"\n")[0].decode("utf-8", "replace") + "\n"]) is not None
    except NoJournal:
        return False


def _tenant(word: str) -> str:
    try:
        return tenant(word)
    except argparse.ArgumentTypeError as fault:
        raise Fault(str(fault)) from fault
