"""A message that the collector does not answer for is not handed on, and the run says so."""

from __future__ import annotations

import http.server
import threading
import unittest
from typing import Any

from itc_trace import Collector, Verdict

from .support import WAIT, ProgramCase, run_traced

STOPPED = """
import glob, http.client, itc_trace, itc_trace.record.messages, os, signal, sys, time
itc_trace.record.messages.ANSWER_WAIT = 0.2
collector, port = map(int, sys.argv[1:])

def is_stopped():
    states = [open(stat).read().rpartition(")")[2].split()[0] for stat in glob.glob(f"/proc/{collector}/task/*/stat")]
    return set(states) == {"T"}

def ask():
    connection = http.client.HTTPConnection("127.0.0.1", port)
    connection.request("GET", "/")
    connection.getresponse().read()

def serve():
    itc_trace.Middleware(lambda environ, start_response: start_response("200 OK", []))({}, lambda status, headers: print(headers))

def send():
    print(itc_trace.outgoing())

os.killpg(collector, signal.SIGSTOP)
try:
    # On a busy machine a thread of it goes on for some time.
    while not is_stopped():
        time.sleep(0.01)
    for _ in range(2):
        {call}()
finally:
    os.killpg(collector, signal.SIGCONT)
"""
GONE = f"""
import itc_trace, itc_trace.record.messages
from itc_trace.model.lines import state
from itc_trace.model.verdict import Cause
itc_trace.record.messages.ANSWER_WAIT = {2 * WAIT}.0
tracer, place = state.tracer, itc_trace.record.messages.place

def place_behind_the_end(frame):
    tracer._give_up(Cause.COLLECTOR, "the collector is gone")
    return place(frame)

itc_trace.record.messages.place = place_behind_the_end
print(itc_trace.outgoing())
"""


class Unanswered(ProgramCase):
    def run_beside(self, call: str, port: int) -> Any:
        with Collector("shop") as collector:
            process = collector._process
            assert process is not None
            program = self.program(STOPPED.replace("{call}", call))
            return run_traced("--watch-nothing", "--port", str(collector.port), "--tenant", "shop", program, str(process.pid), str(port))

    def assert_told(self, ran: Any, line: int) -> None:
        told = f"program.py:{line} was not followed: the collector did not answer within 0.2 s"
        self.assertEqual(ran.returncode, Verdict.INCOMPLETE, ran.stderr)
        self.assertRegex(ran.stderr, rf"(?m)^itc_trace: the message of .*{told}$")
        self.assertRegex(ran.stderr, rf"(?m)^itc_trace: incomplete: the message of .*{told}$")
        self.assertEqual(ran.stderr.count("was not followed"), 2, ran.stderr)

    def test_a_request_without_its_message_is_told_of_once(self) -> None:
        got: list[str | None] = []

        class Handler(http.server.BaseHTTPRequestHandler):
            def do_GET(self) -> None:
                got.append(self.headers.get("Itc-Trace"))
                self.send_response(200)
                self.send_header("Content-Length", "0")
                self.end_headers()

            def log_message(self, *words: Any) -> None:
                pass

        with http.server.ThreadingHTTPServer(("127.0.0.1", 0), Handler) as server:
            threading.Thread(target=server.serve_forever, daemon=True).start()
            ran = self.run_beside("ask", server.server_address[1])
            server.shutdown()
        self.assertEqual(got, [None, None])
        self.assert_told(ran, 12)

    def test_a_response_without_its_message_is_told_of(self) -> None:
        ran = self.run_beside("serve", 0)
        self.assertEqual(ran.stdout, "[]\n[]\n")
        self.assert_told(ran, 16)

    def test_a_message_by_hand_that_has_no_name_is_told_of(self) -> None:
        ran = self.run_beside("send", 0)
        self.assertEqual(ran.stdout, "None\nNone\n")
        self.assert_told(ran, 19)

    def test_nobody_waits_for_a_message_behind_the_end_of_tracing(self) -> None:
        ran = run_traced("--watch-nothing", self.program(GONE))
        self.assertEqual((ran.returncode, ran.stdout), (Verdict.INCOMPLETE, "None\n"), ran.stderr)
        self.assertIn("incomplete: the collector is gone", ran.stderr)


if __name__ == "__main__":
    unittest.main()
