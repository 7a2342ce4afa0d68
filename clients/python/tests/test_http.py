"""Requests and responses of HTTP are messages, and whoever does not know of it is not disturbed."""

from __future__ import annotations

import asyncio
import http.server
import json
import sys
import tempfile
import threading
import unittest
from collections.abc import Awaitable, Callable
from pathlib import Path
from typing import Any

import itc_trace
from itc_trace import Verdict
from itc_trace.record.messages import HEADER

from .support import WAIT, ProgramCase, TracedCase, in_turn, kept_port, run_python, run_system, run_traced

PATIENTLY = f"itc_trace.record.messages.ANSWER_WAIT = {WAIT}"
"""A request of a busy machine is not sent without its message."""
SERVER = f"""
import http.server, itc_trace, sys, threading; {PATIENTLY}
class Handler(http.server.BaseHTTPRequestHandler):
    protocol_version = "HTTP/1.1"
    def do_POST(self):
        self.rfile.read(int(self.headers["Content-Length"]))
        itc_trace.touch("file", write=True, across=True)
        self.send_response(200)
        self.send_header("Content-Length", "2")
        self.end_headers()
        self.wfile.write(b"ok")
    def log_message(self, *words):
        pass
server = http.server.ThreadingHTTPServer(("127.0.0.1", int(sys.argv[1])), Handler)
"""
SERVES = SERVER + """
print("listening", flush=True)
server.serve_forever()
"""
CLIENT = f"""
import http.client, itc_trace, sys, urllib.request; {PATIENTLY}
def ask_twice(port, is_wrong):
    itc_trace.touch("file", write=True, across=True)
    connection = http.client.HTTPConnection("127.0.0.1", port)
    connection.request("POST", "/", b"x")
    if is_wrong:
        itc_trace.touch("file", across=True)
    assert connection.getresponse().read() == b"ok"
    itc_trace.touch("file", write=True, across=True)
    assert urllib.request.urlopen("http://127.0.0.1:%d/" % port, data=b"x").read() == b"ok"
    itc_trace.touch("file", across=True)
"""
ASKS = CLIENT + 'ask_twice(int(sys.argv[1]), sys.argv[2:] == ["wrong"])\n'
BOTH = SERVER + CLIENT + """
threading.Thread(target=server.serve_forever, daemon=True).start()
ask_twice(server.server_address[1], sys.argv[2:] == ["wrong"])
server.shutdown()
"""
BOTH_WAYS = """
import http.client, http.server, threading, urllib.request
from wsgiref.simple_server import WSGIRequestHandler, WSGIServer, make_server

class Handler(http.server.BaseHTTPRequestHandler):
    protocol_version = "HTTP/1.1"
    def do_GET(self):
        self.send_response(200)
        if self.path == "/chunked":
            self.send_header("Transfer-Encoding", "chunked")
            self.end_headers()
            for part in (b"1\\r\\na\\r\\n", b"1\\r\\nb\\r\\n", b"0\\r\\n\\r\\n"):
                self.wfile.write(part)
        elif self.path == "/until_closed":
            self.send_header("Connection", "close")
            self.end_headers()
            self.wfile.write(b"closed")
        else:
            self.send_header("Content-Length", "2")
            self.end_headers()
            self.wfile.write(b"ok")
    do_HEAD = do_POST = do_GET
    def log_message(self, *words):
        pass
class Buffered(Handler):
    wbufsize = -1
    def do_GET(self):
        Handler.do_GET(self)
        self.wfile.flush()
class Quiet(WSGIRequestHandler):
    def log_message(self, *words):
        pass
def application(environ, start_response):
    start_response("200 OK", [("Content-Type", "text/plain")])
    return [b"w", b"sgi"]
def ask(server, method, path, *words):
    threading.Thread(target=server.serve_forever, daemon=True).start()
    connection = http.client.HTTPConnection("127.0.0.1", server.server_address[1])
    connection.request(method, path, *words)
    response = connection.getresponse()
    print(response.status, response.getheaders() and response.read(1), response.read(), response.closed, response.isclosed())
    server.shutdown()
def http_server(kind=Handler):
    return http.server.ThreadingHTTPServer(("127.0.0.1", 0), kind)
ask(http_server(), "GET", "/")
ask(http_server(), "GET", "/chunked")
ask(http_server(), "GET", "/until_closed")
ask(http_server(), "HEAD", "/")
ask(http_server(Buffered), "GET", "/")
ask(http_server(), "POST", "/", b"x", {"Expect": "100-continue"})
ask(make_server("127.0.0.1", 0, application, WSGIServer, Quiet), "GET", "/")
with http_server() as server:
    threading.Thread(target=server.serve_forever, daemon=True).start()
    print(urllib.request.urlopen(f"http://127.0.0.1:{server.server_address[1]}/").read())
    server.shutdown()
"""
RAW = SERVER + """
import socket
threading.Thread(target=server.serve_forever, daemon=True).start()
def ask(headers):
    with socket.create_connection(server.server_address) as connection:
        connection.sendall(f"POST / HTTP/1.1\\r\\nConnection: close\\r\\nContent-Length: 1\\r\\n{headers}\\r\\nx".encode())
        return b"".join(iter(lambda: connection.recv(4096), b""))
for headers in ("", "Itc-Trace: none\\r\\n", "Expect: 100-continue\\r\\nItc-Trace: none\\r\\n", "Itc-Trace: \\xe4 !\\r\\n"):
    print(ask(headers).lower().count(b"itc-trace: out_"))
server.shutdown()
"""


class Http(ProgramCase):
    def test_a_request_and_a_response_between_processes_are_messages(self) -> None:
        for words, verdict in (([], Verdict.NO_RACE), (["wrong"], Verdict.RACES)):
            ran = self.run_system(*words)
            self.assertEqual(ran.returncode, verdict, ran.stderr)
            self.assertEqual(ran.stderr.count("race on"), len(words))
            if words:
                self.assertRegex(ran.stderr, r"read  at .*client\.py:8 in ask_twice")
                self.assertRegex(ran.stderr, r"write at .*server\.py:7 in Handler\.do_POST")

    def test_a_message_has_the_words_of_what_it_carries(self) -> None:
        export = Path(self.enterContext(tempfile.TemporaryDirectory())) / "export"
        ran = self.run_system(options=("--export", str(export)))
        self.assertEqual(ran.returncode, Verdict.NO_RACE, ran.stderr)
        rows = [json.loads(line) for line in Path(f"{export}.journal").read_text().splitlines()]
        found = sorted((row["task"], row["label"]) for row in rows if row.get("kind") in ("send", "recv"))
        by_the_store = [("receive POST /", 2), ("send 200", 2)]
        by_the_seller = [("receive 200", 2), ("send POST /", 2)]
        labels = [label for _, label in found]
        for label, times in by_the_store + by_the_seller:
            self.assertEqual(labels.count(label), times, found)

    def run_system(self, *words: str, options: tuple[str, ...] = ()) -> Any:
        folder = Path(self.enterContext(tempfile.TemporaryDirectory()))
        (folder / "server.py").write_text(SERVES)
        (folder / "client.py").write_text(ASKS)
        port = str(self.enterContext(kept_port()))
        processes = {
            "store": {"command": [sys.executable, "server.py", port], "ready": "listening", "service": True},
            "seller": {"command": [sys.executable, "client.py", port, *words], "after": ["store"]},
        }
        text = "".join(
            f"[process.{name}]\n" + "".join(f"{key} = {json.dumps(value)}\n" for key, value in keys.items()) for name, keys in processes.items())
        (folder / "system.toml").write_text(text)
        return run_system(*options, str(folder / "system.toml"))

    def test_a_request_and_an_answer_of_one_process_give_order(self) -> None:
        program = self.program(BOTH)
        for words, verdict in (([], Verdict.NO_RACE), (["wrong"], Verdict.RACES)):
            ran = run_traced("--watch-nothing", program, "0", *words)
            self.assertEqual(ran.returncode, verdict, ran.stderr)
            self.assertEqual(ran.stderr.count("itc_trace: race on"), len(words), ran.stderr)

    def test_answers_of_one_process_are_in_order_by_luck_alone(self) -> None:
        ran = run_traced("--watch-nothing", self.program(BOTH), "0")
        told = r"possible race on file\n.*:7 in .*do_POST.*\n.*:7 in .*do_POST.*\n.*ordered in this run only by the request at .*program\.py:2\d;"
        self.assertRegex(ran.stderr, told)
        self.assertIn("no race in this run; 1 possible", ran.stderr)

    def test_what_is_sent_by_the_way_is_as_without_tracing(self) -> None:
        program = self.program(BOTH_WAYS)
        plain, traced = run_python(program), run_traced("--watch-nothing", program)
        self.assertEqual((traced.returncode, traced.stdout), (0, plain.stdout), traced.stderr)
        self.assertEqual(len(plain.stdout.splitlines()), 8)

    def test_a_server_answers_with_a_message_only_whoever_sent_one(self) -> None:
        ran = run_traced("--watch-nothing", self.program(RAW), "0")
        self.assertEqual(ran.stdout, "0\n1\n1\n1\n", ran.stderr)

    def test_a_server_that_does_not_know_the_header_serves_as_ever(self) -> None:
        got: list[str | None] = []

        class Handler(http.server.BaseHTTPRequestHandler):
            def do_POST(self) -> None:
                got.append(self.headers.get(HEADER))
                self.rfile.read(int(self.headers["Content-Length"]))
                self.send_response(200)
                self.end_headers()
                self.wfile.write(b"ok")

            def log_message(self, *words: Any) -> None:
                pass

        with http.server.ThreadingHTTPServer(("127.0.0.1", 0), Handler) as server:
            threading.Thread(target=server.serve_forever, daemon=True).start()
            ran = run_traced("--watch-nothing", self.program(ASKS), str(server.server_address[1]))
            server.shutdown()
        self.assertEqual(ran.returncode, Verdict.NO_RACE, ran.stderr)
        self.assertEqual(got, ["out_1", "out_2"])

    def test_another_machine_is_told_nothing_by_a_process_that_is_alone(self) -> None:
        ran = run_traced("--watch-nothing", self.program("""
import http.client
connection = http.client.HTTPConnection("example.org")
connection.send = print
connection.request("GET", "/")
"""))
        self.assertEqual(ran.returncode, 0, ran.stderr)
        self.assertIn("Host: example.org", ran.stdout)
        self.assertNotIn("Itc-Trace", ran.stdout)


class Asgi(TracedCase):
    def serve(self, application: Callable[..., Awaitable[None]], headers: list[tuple[bytes, bytes]]) -> dict[str, Any]:
        """The first event of the application's response."""
        sent: list[dict[str, Any]] = []

        async def send(event: dict[str, Any]) -> None:
            sent.append(event)

        asyncio.run(itc_trace.AsgiMiddleware(application)({"type": "http", "headers": headers}, None, send))  # type: ignore[arg-type]
        return sent[0]

    def scenario(self, touches_again: bool) -> Callable[[], None]:
        request: list[tuple[bytes, bytes]] = [(b"host", b"here")]
        response: dict[str, Any] = {}

        async def application(_scope: Any, _receive: Any, send: Any) -> None:
            itc_trace.touch("row", write=True)
            await send({"type": "http.response.start", "status": 200, "headers": [(b"a", b"b")]})
            await send({"type": "http.response.body", "body": b"ok"})
            if touches_again:
                itc_trace.touch("row", write=True)

        def ask() -> None:
            itc_trace.touch("row", write=True)
            request.append((b"Itc-Trace", (itc_trace.outgoing() or "").encode()))

        def take() -> None:
            headers = dict(response["headers"])
            self.assertEqual(headers[b"a"], b"b")
            itc_trace.incoming(headers[b"itc-trace"].decode())
            itc_trace.touch("row", write=True)

        return lambda: in_turn(ask, lambda: response.update(self.serve(application, request)), take)

    def test_requests_and_responses_are_messages(self) -> None:
        self.assert_ordered(self.scenario(False))

    def test_what_the_application_does_behind_its_response_is_not_in_it(self) -> None:
        self.assert_race(self.scenario(True))

    def test_without_tracing_nothing_is_added(self) -> None:
        async def application(_scope: Any, _receive: Any, send: Any) -> None:
            await send({"type": "http.response.start", "status": 200})

        self.assertEqual(self.serve(application, []), {"type": "http.response.start", "status": 200, "headers": []})


if __name__ == "__main__":
    unittest.main()
