"""Starts a collector for each part of a run, or a relay, when the process that is traced asks for one."""

from __future__ import annotations

import contextlib
import socket
import threading
from types import TracebackType

from ..record import plain
from ..record.collector import HOST, Collector, NoCollector
from ..record.faults import Fault
from .relay import Relaying

ANSWER_SECONDS = 60.0
NEXT_PART, SHARED = "part", "shared"
"""What is asked for: the collector of a further part, or a relay by which several processes report to this part."""


class PartCollectors:
    """The collector of the part that the run is in. That of the part before is kept until the next one begins."""

    def __init__(self, tenant: str) -> None:
        self._tenant = tenant
        self._collectors = [Collector(tenant)]
        self._number = 1
        self._relay: Relaying | None = None
        self._door = socket.create_server((HOST, 0))
        self.asked_at: int = self._door.getsockname()[1]
        """The port at which a further collector is asked for."""
        self._thread = threading.Thread(target=self._serve, daemon=True)
        self._thread.start()

    @property
    def port(self) -> int:
        """Where the part that began last is reported."""
        return self._collectors[-1].port

    def port_of(self, part: int) -> int:
        """Where the last part is reported that the journal tells of.

        A further one may have begun when the program was killed.
        """
        return self._collectors[-1 if part >= self._number else -2].port

    def _serve(self) -> None:
        while True:
            try:
                connection, _ = self._door.accept()
            except OSError:
                return  # It is closed.
            with connection, contextlib.suppress(OSError):
                asked = connection.makefile("r", encoding="ascii").readline().strip()
                reply = self._next() if asked == NEXT_PART else self._shared()
                connection.sendall(f"{reply}\n".encode())

    def _next(self) -> str:
        for collector in self._collectors[:-1]:
            collector.close()
        del self._collectors[:-1]
        try:
            self._collectors.append(Collector(self._tenant))
        except (NoCollector, OSError) as fault:
            return f"no collector: {fault}"
        self._number += 1
        return str(self.port)

    def _shared(self) -> str:
        try:
            if self._relay is None:
                self._relay = Relaying(self.port)
        except OSError as fault:
            return f"no relay: {fault}"
        return str(self._relay.port)

    def close(self) -> None:
        with contextlib.suppress(OSError):
            self._door.shutdown(socket.SHUT_RDWR)
        self._door.close()
        self._thread.join()
        if self._relay is not None:
            self._relay.close()
        for collector in self._collectors:
            collector.close()

    def __enter__(self) -> PartCollectors:
        return self

    def __exit__(
        self, kind: type[BaseException] | None, error: BaseException | None, trace: TracebackType | None
    ) -> None:
        self.close()


def ask_for_port(asked_at: int, what: str = NEXT_PART) -> int:
    """The port of a further collector, or of a relay."""
    with plain.connect(HOST, asked_at) as connection:
        connection.settimeout(ANSWER_SECONDS)
        connection.sendall(f"{what}\n".encode())
        reply = connection.makefile("r", encoding="ascii").readline().strip()
    if not reply.isdigit():
        raise Fault(reply or "no collector")
    return int(reply)
