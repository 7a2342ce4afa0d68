"""Traces requests and responses of HTTP.

Between processes each is a message, whose name is in a header that others do not mind. A request to another machine has
the header only if this process reports beside others. If the process answers itself, its handler finds what is asked by
the same name.
"""

from __future__ import annotations

import os
from collections.abc import Sequence
from types import FrameType, ModuleType
from typing import Any

from ..record import following
from ..model.file_names import name_of_file
from ..model.lines import MARK, Token, state
from ..model.lock_identity import Asking
from ..record.noting import current, failed, take_at
from ..model.frames import frame_at, is_internal, line_of, place
from ..record.messages import HEADER, Sending, incoming_at, words_of_request
from .base import Patches
from .later import once_imported

LOCAL = frozenset({"localhost", "127.0.0.1", "::1"})
LIBRARIES = frozenset({"http", "urllib", "urllib3", "requests", "socketserver", "wsgiref", "itc_trace"})
"""Modules that ask and answer for the program."""
_START_OF_HEADER = f"{HEADER}:".lower().encode()
ANSWER = Asking.answer()
_askings: dict[tuple[str, int], Asking] = {}


class Exchange:
    """A request of this process that nobody has answered yet, or its handler in this process,
    and what the handler has sent."""

    __slots__ = ("asked", "head", "last")

    def __init__(self, asked: Token | None) -> None:
        self.asked = asked
        self.head: Token | None = None
        """The place behind which the headers were sent."""
        self.last: Token | None = None
        """The place behind which something was sent the last time."""


_asked: dict[str, Exchange] = {}
"""The requests of this process that no handler of this process has found, by the names of their messages."""
if hasattr(os, "register_at_fork"):
    os.register_at_fork(after_in_child=_asked.clear)


def put(patches: Patches) -> None:
    once_imported("http.client", lambda module: _put_client(patches, module))
    once_imported("http.server", lambda module: _put_server(patches, module))


def _frame() -> FrameType | None:
    frame = frame_at(1)
    while frame is not None and str(frame.f_globals.get("__name__")).partition(".")[0] in LIBRARIES:
        frame = frame.f_back
    return frame


def _mark(what: Asking, frame: FrameType | None) -> Token | None:
    """A token for the place where the current task is now."""
    note = state.note
    if note is None:
        return None
    try:
        token = Token(current(), what, *place(frame))
        note((MARK, token))
        return token
    except Exception as fault:
        failed(fault)
        return None


# Who asks


def _put_client(patches: Patches, module: ModuleType) -> None:
    connection: Any = vars(module)["HTTPConnection"]
    patches.wrap(connection, "endheaders", _endheaders)
    patches.wrap(connection, "getresponse", _getresponse)
    patches.wrap(vars(module)["HTTPResponse"], "_close_conn", _read_to_the_end)


def _endheaders(original: Any) -> Any:
    def endheaders(self: Any, *words: Any, **named: Any) -> None:
        if _is_told(self) and not any(line.lower().startswith(_START_OF_HEADER) for line in self._buffer):
            _ask(self, _frame())
        original(self, *words, **named)

    return endheaders


def _ask(connection: Any, frame: FrameType | None) -> None:
    line = bytes(connection._buffer[0]).decode("latin-1").split(" ") if connection._buffer else []
    sending = Sending.begin(frame, words_of_request(*line[:2])) if len(line) > 1 else Sending.begin(frame)
    exchange = Exchange(_mark(_asking_at(frame), frame))
    message = None if sending is None else sending.name()
    if message is not None:
        _asked[message] = exchange
        connection.__dict__["_itc_asks"] = message, exchange
        connection.putheader(HEADER, message)


def _asking_at(frame: FrameType | None) -> Asking:
    while frame is not None and is_internal(frame):
        frame = frame.f_back
    where = ("?", 0) if frame is None else (
        name_of_file(frame.f_code.co_filename), line_of(frame.f_code, frame.f_lasti),
    )
    if where not in _askings:
        _askings[where] = Asking.request("{}:{}".format(*where))
    return _askings[where]


def _is_told(connection: Any) -> bool:
    tracer = state.tracer
    return tracer is not None and (bool(tracer.prefix) or following.has_children() or connection.host in LOCAL)


def _getresponse(original: Any) -> Any:
    def getresponse(self: Any) -> Any:
        message, exchange = self.__dict__.pop("_itc_asks", ("", None))
        try:
            response = original(self)
        finally:
            _asked.pop(message, None)
        if exchange is None or exchange.head is None:
            incoming_at(response.headers.get(HEADER), _frame(), str(response.status))
        else:
            take_at(exchange.head, _frame())
            response._itc_exchange = exchange
        return response

    return getresponse


def _read_to_the_end(original: Any) -> Any:
    """Whoever has read all of a response comes after all that was sent. Who closes it before has not read it."""

    def _close_conn(self: Any) -> None:
        original(self)
        exchange = self.__dict__.pop("_itc_exchange", None)
        if exchange is not None and not self.closed:
            take_at(exchange.last, _frame())

    return _close_conn


# Who answers


def _put_server(patches: Patches, module: ModuleType) -> None:
    kind: Any = vars(module)["BaseHTTPRequestHandler"]
    patches.wrap(kind, "parse_request", _parse_request)
    patches.wrap(kind, "end_headers", _end_headers)
    patches.wrap(vars(module)["socketserver"]._SocketWriter, "write", _write)


def _parse_request(original: Any) -> Any:
    def parse_request(self: Any) -> bool:
        if "_itc_asked" in self.__dict__:
            _answers(self, None, None)
        is_one = bool(original(self))
        asked = self.headers.get(HEADER) if is_one else None
        if asked is not None:
            exchange = _asked.pop(asked, None)
            _answers(self, asked, exchange)
            if exchange is not None:
                take_at(exchange.asked, _frame())
            else:
                incoming_at(asked, _frame(), words_of_request(self.command, self.path))
        return is_one

    return parse_request


def _answers(handler: Any, asked: str | None, exchange: Exchange | None) -> None:
    """Keeps what the handler answers now: the message of another process, or the exchange with a task of this one."""
    own = handler.__dict__
    own["_itc_asked"], own["_itc_exchange"] = None if exchange is not None else asked, exchange
    writer = own.get("wfile")
    if type(writer).__name__ == "_SocketWriter":
        writer.__dict__["_itc_exchange"] = exchange


def _end_headers(original: Any) -> Any:
    """Whoever asked with a message gets one with the response."""

    def end_headers(self: Any) -> None:
        if "_itc_asked" in self.__dict__ and not _goes_on(self):
            exchange = self.__dict__.get("_itc_exchange")
            if exchange is not None:
                exchange.head = exchange.last = _mark(ANSWER, _frame())
            elif self.__dict__.get("_itc_asked"):
                self.__dict__["_itc_asked"] = None
                sending = Sending.begin(_frame(), _status_of(self) or "an answer")
                message = None if sending is None else sending.name()
                if message is not None:
                    self.send_header(HEADER, message)
        original(self)

    return end_headers


def _goes_on(handler: Any) -> bool:
    """Whether these are the headers of an answer behind which the response itself is still to come."""
    return _status_of(handler) in ("100", "102", "103")


def _status_of(handler: Any) -> str:
    """The status of the response whose headers the handler has put together. It is empty if it has put none."""
    lines: Sequence[bytes] = getattr(handler, "_headers_buffer", ())
    return "".join(lines[0].decode("latin-1").split(" ")[1:2]) if lines else ""


def _write(original: Any) -> Any:
    """What a handler sends. The headers, too, if it sends them in another way than by `end_headers`."""

    def write(self: Any, sent: Any) -> Any:
        exchange = self.__dict__.get("_itc_exchange")
        if exchange is not None and len(sent):
            exchange.last = _mark(ANSWER, _frame())
            exchange.head = exchange.head or exchange.last
        return original(self, sent)

    return write
