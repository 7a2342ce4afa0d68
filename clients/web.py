"""Runs a server and a client of HTTP in each two languages, Python among them, as two processes of a system.

The client writes, asks, and writes again. What answers reads in between. With the header `Itc-Trace` nothing races. If the client or
the server leaves it out, the lines that say `race: web_client` or `race: web_server` have to be listed, and no others. What a server did before it
made its handler comes before each request, but for a server that is not traced: `race: plain_server`.

Usage: clients/web.py FOLDER LANGUAGE.., with the built programs in FOLDER. The last line is 'web: N passed'.
"""

from __future__ import annotations

import json
import os
import subprocess
import sys
import tempfile
from pathlib import Path

from wrappers import CLIENTS, MOST_SECONDS, NO_RACE, RACES, Check, Programs, Wrong, check, marked, run_all, run_system

WEB_SOURCES = {
    "java": CLIENTS / "java/examples/WebPrograms.java", "rust": CLIENTS / "rust/web_programs.rs", "go": CLIENTS / "go/wrappers/web.go",
}
WITH_WORDS = ("go", "python")
"""The languages whose journals say what a message of HTTP carries."""
TRACED, PLAIN, ASYNC = "traced", "plain", "async"
PYTHON_SERVER = """import itc_trace, os, socket, sys
from wsgiref.simple_server import WSGIRequestHandler, make_server

class Quiet(WSGIRequestHandler):
    def log_message(self, *words):
        pass

def looked():
    itc_trace.touch("row", across=True)  # race: web_server odd_heads
    return b"read"

def look(environ, start_response):
    body = looked()
    start_response("200 OK", [("Content-Length", "4")])
    return [body]

def answer_plainly(door):
    connection, _ = door.accept()
    with connection:
        connection.recv(65536)
        connection.sendall(b"HTTP/1.1 200 OK\\r\\nContent-Length: 4\\r\\nConnection: close\\r\\n\\r\\n" + looked())

def tell(port):
    with open(file + ".new", "w") as told:
        told.write(str(port))
    os.rename(file + ".new", file)

file, count, how = sys.argv[1:]
if how == "traced":
    with make_server("127.0.0.1", 0, itc_trace.Middleware(look), handler_class=Quiet) as server:
        tell(server.server_port)
        for _ in range(int(count)):
            server.handle_request()
else:  # The package has the library's own server look at the header.
    with socket.create_server(("127.0.0.1", 0)) as door:
        tell(door.getsockname()[1])
        answer_plainly(door)
"""
PYTHON_CLIENT = """import itc_trace, os, socket, sys, time

def ask(port):
    with itc_trace.opener().open(f"http://127.0.0.1:{port}") as response:
        return response.read().decode()

def ask_plainly(port):  # The package has the library's own client write the header.
    with socket.create_connection(("127.0.0.1", port)) as connection:
        connection.sendall(b"GET / HTTP/1.1\\r\\nHost: shop\\r\\nConnection: close\\r\\n\\r\\n")
        return b"".join(iter(lambda: connection.recv(4096), b""))[-4:].decode()

file, how = sys.argv[1:]
while not os.path.exists(file):
    time.sleep(0.01)
port = int(open(file).read())
itc_trace.touch("row", write=True, across=True)  # race: web_client
body = ask(port) if how == "traced" else ask_plainly(port)
itc_trace.touch("row", write=True, across=True)  # race: web_client
print(body)
"""
ODD_HEADS = ("none_such", "no name!", "a" * 25, "", "p_out_1\r\nItc-Trace: p_out_2", "\u00e4")
ODD_CLIENT = """import itc_trace, os, socket, sys, time
while not os.path.exists(sys.argv[1]):
    time.sleep(0.01)
itc_trace.touch("row", write=True, across=True)  # race: odd_heads
for message in sys.argv[2:]:
    with socket.create_connection(("127.0.0.1", int(open(sys.argv[1]).read()))) as connection:
        connection.sendall(f"GET / HTTP/1.1\\r\\nHost: shop\\r\\nitc-trace: {message}\\r\\nConnection: close\\r\\n\\r\\n".encode("latin-1"))
        answer = b"".join(iter(lambda: connection.recv(4096), b""))
        assert answer.endswith(b"read"), answer
"""
FIRST_CLIENT = """import itc_trace, os, sys, time
while not os.path.exists(sys.argv[1]):
    time.sleep(0.01)
itc_trace.touch("row", write=True, across=True)  # race: two_requests
with itc_trace.opener().open(f"http://127.0.0.1:{open(sys.argv[1]).read()}") as response:
    response.read()
open(sys.argv[1] + ".asked", "w").close()
"""
SECOND_CLIENT = """import itc_trace, os, socket, sys, time
itc_trace.touch("own")
while not os.path.exists(sys.argv[1] + ".asked"):
    time.sleep(0.01)
with socket.create_connection(("127.0.0.1", int(open(sys.argv[1]).read()))) as connection:
    connection.sendall(b"GET / HTTP/1.1\\r\\nHost: shop\\r\\nConnection: close\\r\\n\\r\\n")
    b"".join(iter(lambda: connection.recv(4096), b""))
"""


class Web:
    """The servers and the clients of the languages that were built, and of Python."""

    def __init__(self, built: Path, languages: list[str], folder: Path) -> None:
        self.languages = [*languages, "python"]
        self._built = built
        self._scripts = {name: folder / f"{name}.py" for name in ("web_server", "web_client", "odd_client", "first_client", "second_client")}
        for file, text in zip(self._scripts.values(), (PYTHON_SERVER, PYTHON_CLIENT, ODD_CLIENT, FIRST_CLIENT, SECOND_CLIENT)):
            file.write_text(text)

    def words(self, language: str, name: str, *words: str) -> list[str]:
        if language == "python":
            return [sys.executable, str(self._scripts[name]), *words]
        return Programs(language, self._built).words(name, *words)

    def lines(self, language: str, name: str, race: str | None = None) -> set[str]:
        """The lines of this language's program that race."""
        source = self._scripts[name] if language == "python" else WEB_SOURCES[language]
        return marked(source, "race", race or name)


def check_pair(web: Web, client: str, asking: str, server: str, answering: str) -> None:
    """The request orders the writes and the read, if both look at the header."""
    with tempfile.TemporaryDirectory() as name:
        folder, port = Path(name), str(Path(name) / "port")
        ran = run_system(
            folder, server=web.words(server, "web_server", port, "1", answering), client=web.words(client, "web_client", port, asking))
    races = web.lines(client, "web_client") | web.lines(server, "web_server") if PLAIN in (asking, answering) else set()
    if answering == PLAIN:
        races |= web.lines(server, "web_server", "plain_server")
    check(ran, RACES if races else NO_RACE, races, set())
    if "client | read" not in ran.stdout:
        raise Wrong(f"the client has no answer\n{ran.stdout}{ran.stderr}")


def check_odd_heads(web: Web, server: str) -> None:
    """A header that names no message of the trace orders nothing. The server goes on, and its trace is whole."""
    with tempfile.TemporaryDirectory() as name:
        folder, port = Path(name), str(Path(name) / "port")
        ran = run_system(
            folder, server=web.words(server, "web_server", port, str(len(ODD_HEADS)), TRACED),
            client=web.words("python", "odd_client", port, *ODD_HEADS))
    check(ran, RACES, web.lines("python", "odd_client", "odd_heads") | web.lines(server, "web_server", "odd_heads"), set())


def check_two_requests(web: Web, server: str) -> None:
    """What one request brings orders nothing for the next one, which brings no message."""
    with tempfile.TemporaryDirectory() as name:
        port = str(Path(name) / "port")
        clients = {one: web.words("python", f"{one}_client", port) for one in ("first", "second")}
        ran = run_system(Path(name), server=web.words(server, "web_server", port, "2", TRACED), **clients)
    check(ran, RACES, web.lines("python", "first_client", "two_requests") | web.lines(server, "web_server", "two_requests"), set())


def check_words(web: Web, language: str) -> None:
    """The journal says of each message what it carries: the request without its query, and the status."""
    with tempfile.TemporaryDirectory() as name:
        folder, port = Path(name), str(Path(name) / "port")
        ran = run_system(
            folder, ["--export", str(folder / "trace")], server=web.words(language, "web_server", port, "1", TRACED),
            client=web.words(language, "web_client", port, TRACED))
        rows = [json.loads(line) for line in (folder / "trace.journal").read_text().splitlines()]
    told = {row["label"] for row in rows if row.get("kind") in ("send", "recv")}
    if not told >= {"send GET /", "receive GET /", "send 200", "receive 200"}:
        raise Wrong(f"the journal says {sorted(told)}\n{ran.stdout}{ran.stderr}")


def check_untraced(web: Web, language: str) -> None:
    """Without a trace, client and server work as they do by themselves."""
    with tempfile.TemporaryDirectory() as name:
        port, environment = str(Path(name) / "port"), {**os.environ, "ITC_TRACE_PORT": "", "PYTHONPATH": str(CLIENTS / "python")}
        server = subprocess.Popen(web.words(language, "web_server", port, "1", TRACED), env=environment, stdout=subprocess.DEVNULL)
        try:
            words = web.words(language, "web_client", port, TRACED)
            ran = subprocess.run(words, env=environment, capture_output=True, text=True, timeout=MOST_SECONDS)
            if (ran.returncode, ran.stdout.split()[:1], ran.stderr, server.wait(MOST_SECONDS)) != (0, ["read"], "", 0):
                raise Wrong(f"without a trace the client writes {ran.stdout}{ran.stderr}")
        finally:
            server.kill()


def checks_of(web: Web) -> list[Check]:
    checks: list[Check] = []
    for client in web.languages:
        checks.append(Check([f"{client}: untraced"], check_untraced, (web, client)))
        if client in WITH_WORDS:
            checks.append(Check([f"{client}: words of messages"], check_words, (web, client)))
        checks.append(Check([f"{client}: odd heads"], check_odd_heads, (web, client)))
        if client != "python":  # Its requests are of the thread that answers them.
            checks.append(Check([f"{client}: two requests"], check_two_requests, (web, client)))
        for server in web.languages:
            hows = [(TRACED, TRACED), (PLAIN, TRACED)] + [(TRACED, PLAIN)] * (client == server) + [(ASYNC, TRACED)] * (client == "java")
            checks += [
                Check([f"{client}, {asking}, asks {server}, {answering}"], check_pair, (web, client, asking, server, answering))
                for asking, answering in hows
            ]
    return checks


def main() -> int:
    with tempfile.TemporaryDirectory() as folder:
        return run_all("web", checks_of(Web(Path(sys.argv[1]), sys.argv[2:], Path(folder))))


if __name__ == "__main__":
    sys.exit(main())
