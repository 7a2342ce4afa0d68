"""Many processes, one tenant: the relay, messages between processes, and snapshots."""

from __future__ import annotations

import io
import os
import socket
import subprocess
import threading
import time
import unittest
from concurrent.futures import ThreadPoolExecutor
from wsgiref.simple_server import WSGIRequestHandler, make_server

from itc_trace import Collector, Middleware, Refused, Session, incoming, opener, outgoing, touch, tracing
from itc_trace.record.collector import find_program
from itc_trace.processes.relay import Relay
from itc_trace.analyse.snapshot import snapshot

from .support import WAIT, TracedCase, wait_until

CLIENTS, REPORTS = 12, 40


class Relayed(unittest.TestCase):
    def setUp(self) -> None:
        self.collector = Collector("x", "y")
        self.relay = Relay(0, self.collector.port)
        self.serving = threading.Thread(target=self.relay.serve)
        self.serving.start()

    def tearDown(self) -> None:
        self.relay.stop()
        self.serving.join()
        self.relay.close()
        self.collector.close()

    def connect(self, *lines: str) -> socket.socket:
        connection = socket.create_connection(("127.0.0.1", self.relay.port), timeout=WAIT)
        connection.sendall("".join(f"{line}\n" for line in lines).encode())
        return connection

    def events(self, tenant: str = "x") -> int:
        with Session(tenant, self.relay.port, "view") as view:
            return view.count()[0]

    def test_each_client_is_answered_what_it_asked(self) -> None:
        def work(number: int) -> bool:
            with Session("x", self.relay.port) as session:
                session.spawn("root", f"t{number}")
                events = [session.local(f"t{number}") for _ in range(REPORTS)]
                return events == sorted(events) and all(session.event(event)[1] == f"t{number}" for event in events)

        with ThreadPoolExecutor(CLIENTS) as pool:
            self.assertTrue(all(pool.map(work, range(CLIENTS))))
        self.assertEqual(self.events(), CLIENTS * (REPORTS + 1))

    def test_many_lines_at_once_are_answered_in_order(self) -> None:
        with Session("x", self.relay.port) as session, Session("x", self.relay.port) as other:
            replies = list(session.ask(["local root"] * 3000))
            self.assertEqual(replies, [f"201 {number}" for number in range(1, 3001)])
            self.assertEqual(other.local("root"), 3001)

    def test_tenants_are_kept_apart(self) -> None:
        with Session("x", self.relay.port) as one, Session("y", self.relay.port) as other:
            self.assertEqual([one.local("root"), one.local("root"), other.local("root")], [1, 2, 1])

    def test_a_client_that_dies_in_the_middle_of_a_line_ends_alone(self) -> None:
        with Session("x", self.relay.port) as other:
            for rest in ("send root stock_1", "local ro", "l", "a" * 500):
                dying = self.connect("report x", "local root")
                dying.recv(100)
                dying.sendall(rest.encode())
                dying.setsockopt(socket.SOL_SOCKET, socket.SO_LINGER, b"\1\0\0\0\0\0\0\0")
                dying.close()  # By a reset.
                other.local("root")
            self.assertEqual(other.count(), (8, 1, 0))

    def test_clients_that_are_killed_lose_no_answered_report(self) -> None:
        def work() -> int:
            with self.connect("report x") as connection:
                connection.sendall(b"local root\n" * 50 + b"local ro")
                lines, told = connection.makefile("rb"), 0
                while told < 25 and lines.readline().startswith(b"201"):
                    told += 1
                lines.close()
                return told

        with ThreadPoolExecutor(8) as pool:
            told = sum(pool.map(lambda _: work(), range(16)))
        self.assertEqual(told, 16 * 25)
        wait_until(lambda: self.events() >= told)
        self.assertGreaterEqual(self.events(), told)
        with Session("x", self.relay.port) as session:
            self.assertGreater(session.local("root"), told)

    def test_a_faulty_line_is_answered_in_its_place(self) -> None:
        with self.connect("report x", "local root", "", "a" * 300, "b" * 100000, "local root") as connection:
            lines = connection.makefile("r")
            self.assertEqual([lines.readline() for _ in range(5)],
                             ["201 1\n", "400 line\n", "400 line\n", "400 line\n", "201 2\n"])
            lines.close()

    def test_quit_ends_a_session_once_all_is_answered(self) -> None:
        with self.connect("report x", *["local root"] * 5, "quit", "local root") as connection:
            lines = connection.makefile("r")
            self.assertEqual(len(lines.read().split("\n")), 6)
            lines.close()
        self.assertEqual(self.events(), 5)

    def test_the_end_of_lines_ends_a_session_once_all_is_answered(self) -> None:
        with self.connect("report x", *["local root"] * 5) as connection:
            connection.shutdown(socket.SHUT_WR)
            lines = connection.makefile("r")
            self.assertEqual(len(lines.read().split("\n")), 6)
            lines.close()

    def test_refusals_of_a_session_come_through(self) -> None:
        for kind, tenant, code in (("report", "z", 420), ("view", "z", 420), ("look", "x", 400)):
            with self.subTest(kind=kind, tenant=tenant):
                with self.assertRaises(Refused) as refused:
                    Session(tenant, self.relay.port, kind)
                self.assertEqual(refused.exception.code, code)

    def test_views_pass_through(self) -> None:
        with Session("x", self.relay.port) as session, Session("x", self.relay.port, "view") as view:
            session.local("root")
            self.assertEqual(view.count(), (1, 1, 0))
            with self.assertRaises(Refused) as refused:
                view.local("root")
            self.assertEqual(refused.exception.code, 410)
            self.assertEqual(view.task("root"), ("live", 1))

    def test_a_session_goes_on_beyond_the_collector_s_limit_of_requests(self) -> None:
        import itc_trace.processes.relay as module

        limit, module.MOST_REQUESTS = module.MOST_REQUESTS, 1000
        try:
            with Session("x", self.relay.port) as one, Session("x", self.relay.port) as other:
                for turn in range(1, 6):
                    self.assertEqual(len(list(one.ask(["count"] * 400))), 400)
                    self.assertEqual(other.local("root"), turn)
        finally:
            module.MOST_REQUESTS = limit

    def test_the_end_of_the_collector_ends_all_sessions(self) -> None:
        session = Session("x", self.relay.port)
        self.collector.close()
        with self.assertRaises((ConnectionError, OSError)):
            session.local("root")
        session.close()

    def test_processes_have_tasks_and_names_of_their_own(self) -> None:
        for _ in range(2):
            with tracing(port=self.relay.port, tenant="x", process="web"):
                thread = threading.Thread(target=touch, args=("x",))
                thread.start()
                thread.join()
        with Session("x", self.relay.port, "view") as view:
            self.assertEqual([view.task(name)[0] for name in ("web", "web_touch_1", "web2", "web2_touch_1")],
                             ["live", "joined", "live", "joined"])


class Quiet(WSGIRequestHandler):
    def log_message(self, *_: object) -> None:
        pass


class Messages(TracedCase):
    def test_who_receives_a_message_comes_after_who_sent_it(self) -> None:
        def scenario() -> None:
            names: list[str | None] = []

            def first() -> None:
                touch("x", write=True)
                names.append(outgoing())
                touch("y", write=True)

            def second() -> None:
                while not names:
                    time.sleep(0.001)
                incoming(names[0])
                touch("x", write=True)
                touch("y", write=True)

            threads = [threading.Thread(target=one) for one in (first, second)]
            for thread in threads:
                thread.start()
            for thread in threads:
                thread.join()

        self.assert_racing_things("y", scenario)

    def test_what_is_no_message_is_passed_over(self) -> None:
        def scenario() -> None:
            for name in (None, "", "unknown", "two words", "a" * 99, "\n"):
                incoming(name)
            message = outgoing()
            incoming(message)
            incoming(message)
            touch("x")

        self.races(scenario)
        self.assertEqual(len([row for row in self.rows if row.is_touch]), 1)

    def test_a_request_and_its_response_are_messages(self) -> None:
        def application(environ: object, start: object) -> list[bytes]:
            touch("x", write=True)
            start("200 OK", [])  # type: ignore[operator]
            touch("y", write=True)
            return [b"told"]

        def scenario() -> None:
            with make_server("127.0.0.1", 0, Middleware(application), handler_class=Quiet) as server:
                serving = threading.Thread(target=server.handle_request)
                serving.start()
                touch("x", write=True)
                with opener().open(f"http://127.0.0.1:{server.server_port}/", timeout=WAIT) as response:
                    self.assertEqual(response.read(), b"told")
                touch("x", write=True)
                touch("y", write=True)
                serving.join()

        self.assert_racing_things("y", scenario)

    def test_untraced_they_do_nothing(self) -> None:
        self.assertIsNone(outgoing())
        incoming("m")


HEADER = '{"events":16384,"messages":16384,"tasks":2048,"tenant":"x","version":2}\n'


class Snapshots(unittest.TestCase):
    def test_the_check_says_yes_to_a_snapshot_of_a_running_tenant(self) -> None:
        with Collector("x") as collector, Session("x", collector.port) as session:
            session.spawn("root", "a")
            for number in range(300):
                session.send("a", f"m{number}")
                session.recv("root", f"m{number}")
            reporting = threading.Thread(target=lambda: list(session.ask(["local root"] * 3000)))
            reporting.start()
            output = io.StringIO()
            events = snapshot("x", collector.port, output)
            reporting.join()
            checked = subprocess.run([find_program(), "check"], input=output.getvalue(), capture_output=True, text=True,
                                     env=os.environ, check=False)
            self.assertGreaterEqual(events, 601)
            self.assertEqual(checked.stdout, f"yes {events}\n")

    def test_nothing_is_an_export_too(self) -> None:
        with Collector("x") as collector:
            output = io.StringIO()
            self.assertEqual(snapshot("x", collector.port, output), 0)
            self.assertEqual(output.getvalue(), HEADER)

    def test_the_limits_of_its_header_hold_its_events(self) -> None:
        """A loader under the limits of a header that are too small refuses the export."""
        with Collector("x") as collector, Session("x", collector.port) as session:
            self.assertEqual(len(list(session.ask(["local root"] * 5000))), 5000)
            output = io.StringIO()
            snapshot("x", collector.port, output)
        self.assertTrue(output.getvalue().startswith(HEADER))
        read = subprocess.run([find_program(), "load", "y"], input=output.getvalue(), capture_output=True, text=True, check=False)
        self.assertEqual((read.stdout, read.stderr), ("y local root\n" * 5000, ""))


if __name__ == "__main__":
    unittest.main()
