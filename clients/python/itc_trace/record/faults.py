"""What keeps a command from its work, each in one line that says what to do."""

from __future__ import annotations

import contextlib
import re
import socket
import sys
import threading
from collections.abc import Iterator

from .collector import HOST
from ..model.readable import readable
from ..session import LONGEST_ANSWER, Refused, Session

WORDS_REFUSED = 2
"""The status of a command that could not do its work."""

TASK_EXISTS, NO_TENANT, DESK_TAKEN, NO_PLACE = 402, 420, 421, 422
FULL = (413, 414, 415)
REPLY = re.compile(r"\d{3}( |$)")
MOST_SHOWN = 40
SILENT_SECONDS = 5.0
NO_ROOM = "all its sessions may be taken: start it with more --workers, or end a program that reports or asks"
WAITS = f"waits for the collector at port {{port}}: {NO_ROOM}"


class Fault(ConnectionError):
    """What keeps a command from its work."""


def nobody_listens(port: int, host: str = HOST) -> str:
    if host != HOST:
        return f"nobody listens at port {port} of {host}: name the port and the host of a collector that runs"
    return (
        f"nobody listens at port {port}: start a collector there by `itc-trace serve --port {port} TENANT`, "
        "or name the port of one that runs"
    )


def refusal(reply: str, tenant: str, port: int) -> str:
    """Why the collector does not take a session or a report, and what to do."""
    if not REPLY.match(reply):
        shown = reply[:MOST_SHOWN]
        return f"what listens at port {port} is no collector, as it answers {shown!r}: name the port of one"
    code = int(reply[:3])
    advice = _advice(code, tenant, port)
    return f"{reply}: {advice}" if advice else f"tenant {tenant} at port {port}: {reply}"


def _advice(code: int, tenant: str, port: int) -> str:
    if code == DESK_TAKEN:
        return (
            f"another program reports to tenant {tenant} at port {port}: have both report to a relay, "
            f"`python3 -m itc_trace relay --listen PORT --port {port}`, or wait for its end"
        )
    if code == NO_TENANT:
        advice = "name one of its own, which `run` takes by --tenant"
        return f"the collector at port {port} has no tenant {tenant}: {advice}"
    if code == NO_PLACE:
        return f"the collector at port {port} has no room for another session: start it with more --workers"
    if code == TASK_EXISTS:
        return (
            f"tenant {tenant} at port {port} keeps the trace of another run with the same names: "
            "name another by --tenant, name each process by --process, or start a fresh server"
        )
    if code in FULL:
        return (
            f"the trace of tenant {tenant} at port {port} has no room left: "
            "name another by --tenant, or start a fresh server"
        )
    return ""


def look_for_collector(port: int, host: str = HOST) -> None:
    """Makes sure that somebody listens at the port."""
    with _reached(port, host):
        socket.create_connection((host, port), LONGEST_ANSWER).close()


def look(tenant: str, port: int, host: str = HOST) -> None:
    """Makes sure that the collector has this tenant, before anything is run."""
    try:
        with _reached(port, host), told_if_it_takes_long(WAITS.format(port=port)):
            Session(tenant, port, "view", host, LONGEST_ANSWER).close()
    except Refused as refused:
        raise Fault(refusal(refused.reply, tenant, port)) from refused


@contextlib.contextmanager
def _reached(port: int, host: str) -> Iterator[None]:
    """Says in words why a collector cannot be reached."""
    try:
        yield
    except ConnectionRefusedError as refused:
        raise Fault(nobody_listens(port, host)) from refused
    except (socket.gaierror, UnicodeError) as unknown:  # The second is of a name that is too long.
        raise Fault(f"there is no host {host}: name one by --host, or its address") from unknown
    except TimeoutError as late:
        raise Fault(f"the collector at port {port} of {host} does not answer: {NO_ROOM}") from late
    except ConnectionError as ended:
        advice = "name the port of a collector that runs"
        raise Fault(f"what listens at port {port} ended the connection: {advice}") from ended
    except OSError as fault:
        raise Fault(f"port {port} of {host} cannot be reached: {fault.strerror or fault}") from fault


@contextlib.contextmanager
def told_if_it_takes_long(what: str) -> Iterator[None]:
    """Says on standard error what is waited for, once it has taken some seconds."""
    timer = threading.Timer(SILENT_SECONDS, _tell, (what,))
    timer.daemon = True
    timer.start()
    try:
        yield
    finally:
        timer.cancel()


def _tell(what: str) -> None:
    if sys.__stderr__ is not None:
        with contextlib.suppress(OSError, ValueError):
            print(f"itc_trace: {what}", file=sys.__stderr__, flush=True)


def in_words(fault: Exception) -> str:
    """What a fault says to a person: of a file, which one, and not the number of the error."""
    if isinstance(fault, OSError) and fault.strerror and not isinstance(fault, Fault):
        return readable(f"{fault.filename}: {fault.strerror}" if fault.filename is not None else fault.strerror)
    return readable(str(fault))
