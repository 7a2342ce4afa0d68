"""Runs a server and a client of HTTP as two processes, of Java as it is, with the agent, and of Python.

The client asks for two pages, one after the other. What answers the first one writes, and what answers the second one
reads. The two are in order by the response to the first one and by the second request alone. If the server writes once
it has answered, the lines race that say `race: late`. If each page is asked for by a client of its own, those race that
say `race: apart`.

Usage: clients/watched_web.py FOLDER, with the agent and the built programs in FOLDER. The last line is
'watched_web: N passed'.
"""

from __future__ import annotations

import os
import subprocess
import sys
import tempfile
from pathlib import Path
from typing import NamedTuple

from wrappers import CLIENTS, MOST_SECONDS, NO_RACE, RACES, Check, Wrong, check, marked, run_all, run_system

BRIEF = ("-XX:TieredStopAtLevel=1", "-XX:+UseSerialGC")
SOURCE = CLIENTS / "java/agent/programs/Across.java"
PAGES = ("/first", "/second")
EARLY, LATE, APART = "early", "late", "apart"
CLIENT, LATER, CONNECTION = "client", "later", "connection"
HEADER = "Itc-Trace"
HERE, ELSEWHERE = "127.0.0.1", "127.0.0.2"
"""The second one is of this machine, too, but nobody says so."""
PYTHON_SERVER = """import itc_trace, os, sys, threading
from http.server import BaseHTTPRequestHandler, ThreadingHTTPServer

file, count, how = sys.argv[1:]
done = threading.Semaphore(0)

class Pages(BaseHTTPRequestHandler):
    def do_GET(self):
        if self.path == "/second":
            itc_trace.touch("stock")  # race: late apart
        elif how == "early":
            itc_trace.touch("stock", write=True)  # race: apart
        self.answer(self.path[1:].encode())
        if self.path == "/first" and how == "late":
            itc_trace.touch("stock", write=True)  # race: late
        done.release()

    def answer(self, body):
        self.send_response(200)
        self.send_header("Content-Length", str(len(body)))
        self.end_headers()
        self.wfile.write(body)

    def log_message(self, *words):
        pass

with ThreadingHTTPServer(("127.0.0.1", 0), Pages) as server:
    with open(file + ".new", "w") as told:
        told.write(str(server.server_port))
    os.rename(file + ".new", file)
    for _ in range(int(count)):
        server.handle_request()
    for _ in range(int(count)):
        done.acquire()
"""
PYTHON_CLIENT = """import os, sys, time, urllib.request

file, *pages = sys.argv[1:]
while not os.path.exists(file):
    time.sleep(0.01)
for page in pages:
    with urllib.request.urlopen(f"http://127.0.0.1:{open(file).read()}{page}") as response:
        print(response.read().decode())
"""
HEARING = """import os, socket, sys

with socket.create_server(("0.0.0.0", 0)) as door:
    with open(sys.argv[1] + ".new", "w") as told:
        told.write(str(door.getsockname()[1]))
    os.rename(sys.argv[1] + ".new", sys.argv[1])
    connection, _ = door.accept()
    with connection:
        heard = b""
        while b"\\r\\n\\r\\n" not in heard:
            heard += connection.recv(4096)
        connection.sendall(b"HTTP/1.1 200 OK\\r\\nContent-Length: 4\\r\\nConnection: close\\r\\n\\r\\nread")
        print(heard.decode())
"""


class Web(NamedTuple):
    """What is run, by its words."""

    built: Path
    folder: Path

    def environment(self) -> dict[str, str]:
        """In which the package of Python finds the agent."""
        agent = str(self.built / "itc-trace-agent.jar")
        return {**os.environ, "PYTHONPATH": str(CLIENTS / "python"), "ITC_TRACE_AGENT": agent}

    def script(self, name: str, text: str) -> Path:
        path = self.folder / f"{name}.py"
        path.write_text(text)
        return path

    def java(self, *words: str, is_watched: bool = True) -> list[str]:
        agent = [f"-javaagent:{self.built}/itc-trace-agent.jar"] if is_watched else []
        return ["java", *BRIEF, *agent, "-cp", str(self.built / "programs"), "Across", *words]

    def server(self, language: str, *words: str) -> list[str]:
        if language == "python":
            return [sys.executable, str(self.script("server", PYTHON_SERVER)), *words]
        return self.java("answer", *words)

    def client(self, how: str, file: str, *pages: str) -> list[str]:
        if how == "python":
            return [sys.executable, str(self.script("client", PYTHON_CLIENT)), file, *pages]
        return self.java("ask", file, how, HERE, *pages)

    def races(self, language: str, kind: str) -> set[str]:
        source = self.script("server", PYTHON_SERVER) if language == "python" else SOURCE
        return set() if kind == EARLY else marked(source, "race", kind)


def check_pages(web: Web, how: str, language: str, kind: str) -> None:
    """The two pages are in order, or exactly their lines race."""
    with tempfile.TemporaryDirectory() as name:
        file = str(Path(name) / "port")
        server = web.server(language, file, "2", LATE if kind == LATE else EARLY)
        if kind == APART:
            ran = run_system(Path(name), server=server, **{page[1:]: web.client(how, file, page) for page in PAGES})
        else:
            ran = run_system(Path(name), server=server, client=web.client(how, file, *PAGES))
    races = web.races(language, kind)
    check(ran, RACES if races else NO_RACE, races, set())
    if not all(f"| {page[1:]}" in ran.stdout for page in PAGES):
        raise Wrong(f"a page is lacking\n{ran.stdout}{ran.stderr}")


def check_unwatched(web: Web, is_server: bool) -> None:
    """If one of the two is watched alone, both work as they do by themselves."""
    environment = web.environment()
    watching = [sys.executable, "-m", "itc_trace", "java", *BRIEF, "-cp", str(web.built / "programs"), "Across"]
    with tempfile.TemporaryDirectory() as name:
        file = str(Path(name) / "port")
        answering, asking = ["answer", file, "2", EARLY], ["ask", file, CLIENT, HERE, *PAGES]
        words = [*watching, *answering] if is_server else web.java(*answering, is_watched=False)
        with subprocess.Popen(words, env=environment, stderr=subprocess.PIPE, text=True) as server:
            words = web.java(*asking, is_watched=False) if is_server else [*watching, *asking]
            ran = subprocess.run(
                words, env=environment, capture_output=True, text=True, timeout=MOST_SECONDS, check=False,
            )
            told = server.communicate(timeout=MOST_SECONDS)[1]
    due = "itc_trace: race" in told if is_server else "no race" in ran.stderr  # Nobody says what orders the requests.
    if ran.stdout != "first\nsecond\n" or ran.returncode or not due:
        raise Wrong(f"the client writes {ran.stdout}{ran.stderr}, and the server {told}")


def heard(web: Web, host: str, how: str, is_alone: bool) -> bool:
    """Whether a server at this host gets the header."""
    with tempfile.TemporaryDirectory() as name:
        file = Path(name) / "port"
        hearing = [sys.executable, str(web.script("hearing", HEARING)), str(file)]
        asking = ["-cp", str(web.built / "programs"), "Across", "ask", str(file), how, host, "/first"]
        if not is_alone:
            words = ["java", *BRIEF, f"-javaagent:{web.built}/itc-trace-agent.jar", *asking]
            return HEADER in run_system(Path(name), hearing=hearing, client=words).stdout
        with subprocess.Popen(hearing, stdout=subprocess.PIPE, text=True) as server:
            words = [sys.executable, "-m", "itc_trace", "java", *BRIEF, *asking]
            subprocess.run(words, env=web.environment(), capture_output=True, timeout=MOST_SECONDS, check=True)
            return HEADER in server.communicate(timeout=MOST_SECONDS)[0]


def check_header(web: Web, host: str, how: str, is_alone: bool, is_due: bool) -> None:
    """Another machine gets the header only from a process that reports beside others."""
    if heard(web, host, how, is_alone) != is_due:
        raise Wrong(f"the header is {'missing' if is_due else 'sent'}")


def checks_of(web: Web) -> list[Check]:
    pairs = [
        (CLIENT, "java"), (LATER, "java"), (CONNECTION, "java"), ("python", "java"), (CLIENT, "python"),
        (CONNECTION, "python"),
    ]
    checks = [
        Check([f"{how} asks {language}, {kind}"], check_pages, (web, how, language, kind))
        for how, language in pairs for kind in (EARLY, LATE)
    ]
    checks += [
        Check([f"{how} asks {language}, {APART}"], check_pages, (web, how, language, APART))
        for how, language in pairs[::3]
    ]
    checks += [Check([f"unwatched, {is_server}"], check_unwatched, (web, is_server)) for is_server in (False, True)]
    headers = [(HERE, True, True), (ELSEWHERE, True, False), (ELSEWHERE, False, True)]
    return checks + [
        Check([f"header to {host} by {how}, {is_alone}"], check_header, (web, host, how, is_alone, is_due))
        for host, is_alone, is_due in headers for how in (CLIENT, CONNECTION)
    ]


def main() -> int:
    with tempfile.TemporaryDirectory() as folder:
        return run_all("watched_web", checks_of(Web(Path(sys.argv[1]).resolve(), Path(folder))))


if __name__ == "__main__":
    sys.exit(main())
