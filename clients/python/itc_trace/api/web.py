"""Messages between processes that report to one tenant, by hand or in a header of HTTP."""

from __future__ import annotations

import sys
import urllib.request
from collections.abc import Callable, Iterable
from http.client import HTTPResponse
from typing import Any

from ..record.messages import HEADER, Sending, incoming_at, words_of_request

VARIABLE = "HTTP_ITC_TRACE"
ASGI_HEADER = HEADER.lower().encode()
STARTS_OF_RESPONSES = ("http.response.start", "websocket.accept")


def outgoing() -> str | None:
    """The name of a new message from here: hand it to another process, which calls `incoming` with it.

    It returns once the collector has the message, so that no receipt can come before. It is None where tracing is off.
    """
    return _name_of(Sending.begin(sys._getframe(1)))


def incoming(message: str | None) -> None:
    """From now on the current task comes after the place where this message was sent.

    What is no message is passed over.
    """
    incoming_at(message, sys._getframe(1))


def _name_of(sending: Sending | None) -> str | None:
    return None if sending is None else sending.name()


class Opener(urllib.request.BaseHandler):
    """Sends a message with each request, and receives the one that the response brings."""

    def http_request(self, request: urllib.request.Request) -> urllib.request.Request:
        words = words_of_request(request.get_method(), request.selector)
        message = _name_of(Sending.begin(sys._getframe(0), words))
        if message is not None:
            request.add_unredirected_header(HEADER, message)
        return request

    def http_response(self, request: urllib.request.Request, response: HTTPResponse) -> HTTPResponse:
        incoming_at(response.headers.get(HEADER), sys._getframe(0), str(response.status))
        return response

    https_request = http_request
    https_response = http_response


def opener(*handlers: Any) -> urllib.request.OpenerDirector:
    """An opener of urllib whose requests and responses are messages."""
    return urllib.request.build_opener(Opener, *handlers)


Application = Callable[[dict[str, Any], Callable[..., Any]], Iterable[bytes]]


class Middleware:
    """A WSGI application whose requests and responses are messages."""

    def __init__(self, application: Application) -> None:
        self._application = application

    def __call__(self, environ: dict[str, Any], start_response: Callable[..., Any]) -> Iterable[bytes]:
        path = f"{environ.get('SCRIPT_NAME', '')}{environ.get('PATH_INFO', '')}"
        words = words_of_request(str(environ.get("REQUEST_METHOD")), path)
        incoming_at(environ.get(VARIABLE), sys._getframe(0), words)

        def start_traced(status: str, headers: list[tuple[str, str]], *error: Any) -> Any:
            message = _name_of(Sending.begin(sys._getframe(0), status.partition(" ")[0]))
            named = [] if message is None else [(HEADER, message)]
            return start_response(status, [*headers, *named], *error)

        return self._application(environ, start_traced)


AsgiApplication = Callable[[dict[str, Any], Callable[..., Any], Callable[..., Any]], Any]


class AsgiMiddleware:
    """An ASGI application whose requests and responses are messages."""

    def __init__(self, application: AsgiApplication) -> None:
        self._application = application

    async def __call__(self, scope: dict[str, Any], receive: Callable[..., Any], send: Callable[..., Any]) -> None:
        words = words_of_request(str(scope.get("method", scope.get("type"))), str(scope.get("path", "")))
        for name, value in scope.get("headers", ()):
            if name.lower() == ASGI_HEADER:
                incoming_at(value.decode("ascii", "replace"), sys._getframe(0), words)

        async def send_traced(event: dict[str, Any]) -> None:
            if event["type"] in STARTS_OF_RESPONSES:
                message = _name_of(Sending.begin(sys._getframe(0), str(event.get("status", "an answer"))))
                named = [] if message is None else [(ASGI_HEADER, message.encode())]
                event = {**event, "headers": [*event.get("headers", ()), *named]}
            await send(event)

        await self._application(scope, receive, send_traced)
