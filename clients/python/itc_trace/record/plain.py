"""What the package waits, locks and connects by,
as it is before a program or a library puts something else in its place."""

from __future__ import annotations

import _thread
import select as _selecting
import socket
import time

allocate_lock = _thread.allocate_lock
RLock = vars(_thread)["RLock"]
start_new_thread = _thread.start_new_thread
sleep = time.sleep
select = _selecting.select

_Socket = socket.socket
_addresses = socket.getaddrinfo


def connect(host: str, port: int) -> socket.socket:
    """A connection of which every call waits as long as it takes."""
    fault: OSError = OSError(f"{host} has no address")
    for family, kind, protocol, _, address in _addresses(host, port, 0, socket.SOCK_STREAM):
        one = of_file(-1, family, kind, protocol)
        try:
            one.connect(address)
            return one
        except OSError as error:
            fault = error
            one.close()
    raise fault


def of_file(file: int, family: int = -1, kind: int = -1, protocol: int = -1) -> socket.socket:
    """The socket of a descriptor, else a new one.

    A program may have set a limit of time for all sockets, which is not for these.
    """
    one = _Socket(family, kind, protocol) if file < 0 else _Socket(fileno=file)
    one.settimeout(None)
    return one
