"""The connection of a process to the tenant that it reports to."""

from __future__ import annotations

import contextlib
import socket

from . import own_files, plain
from .faults import Fault, nobody_listens, refusal


class Connection:
    """A session with the collector, or with the next one where a run goes on in another part."""

    def __init__(self, host: str, tenant: str) -> None:
        self.host = host
        self.tenant = tenant
        self.rest = b""
        """What was read behind the last whole reply."""
        self._socket: socket.socket

    def open(self, port: int) -> int:
        """Begins to report at this port. Gives how many events there are."""
        try:
            self._keep(plain.connect(self.host, port).detach())
        except ConnectionRefusedError as refused:
            raise Fault(nobody_listens(port)) from refused
        try:
            self._socket.setsockopt(socket.IPPROTO_TCP, socket.TCP_NODELAY, 1)
            self.rest = b""
            count = self.ask(f"report {self.tenant}\ncount")
            if not count.startswith("200 "):
                raise Fault(refusal(count, self.tenant, port))
        except BaseException:
            self.close()
            raise
        return int(count.split()[1])

    def _keep(self, file: int) -> None:
        self._socket = plain.of_file(own_files.keep(file, self._move))

    def _move(self, file: int) -> None:
        """The program has put another file at the number of the socket. It is not to be closed there."""
        self._socket.detach()
        self._socket = plain.of_file(file)

    def ask(self, lines: str) -> str:
        self.send(f"{lines}\n")
        while b"\n" not in self.rest:
            more = self._socket.recv(65536)
            if not more:
                raise ConnectionError("the collector has ended the session")
            self.rest += more
        reply, _, self.rest = self.rest.partition(b"\n")
        return reply.decode()

    def send(self, text: str) -> None:
        self._socket.sendall(text.encode())

    def read(self) -> bytes:
        return self._socket.recv(262144)

    def end(self) -> None:
        """Nothing more is sent or read. Whoever waits for replies goes on."""
        with contextlib.suppress(OSError):
            self._socket.shutdown(socket.SHUT_RDWR)

    def close(self) -> None:
        own_files.let_go(self._socket.fileno())
        with contextlib.suppress(OSError):  # The program has closed it.
            self._socket.close()
