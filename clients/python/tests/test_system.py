"""A system of several processes is run by one command, and its races are listed once."""

from __future__ import annotations

import json
import os
import re
import shutil
import signal
import socket
import subprocess
import sys
import tempfile
import tracemalloc
import unittest
from pathlib import Path
from types import SimpleNamespace
from typing import Any

from itc_trace import Verdict
from itc_trace.cli.system import Running
from itc_trace.cli.system_file import Described, System
from itc_trace.model.verdict import END_ROW

from .support import EXAMPLES, PACKAGE, PATIENT, WAIT, kept_port, run_python, run_system

CLIENTS = PACKAGE.parent
STOCK = """
import itc_trace, sys, threading
stock = itc_trace.shared({"left": 2}, "stock", across=ACROSS)
stock["left"] -= 1
print("sold", flush=True)
"""
REPORTING = """
import itc_trace
itc_trace.install(watched=None)
itc_trace.touch("x", write=True)
"""
JAVA_PACKAGE = CLIENTS / "java/src/main/java/example/hometturi/itctrace"
JAVA = """import example.hometturi.itctrace.Reporter;

public final class Seller {
    public static void main(String[] words) throws Exception {
        try (Reporter reporter = Reporter.fromEnvironment().orElseThrow()) {
            reporter.touchAcross(reporter.task, "stock row", false);
            reporter.touchAcross(reporter.task, "stock row", true);
            reporter.touch(reporter.task, "own \\"row\\"", true);
            String child = reporter.name("child");
            reporter.spawn(reporter.task, child);
            reporter.touch(child, "own \\"row\\"", true);
            reporter.end(child);
            reporter.join(reporter.task, child);
        }
    }
}
"""
JAVA_MAIN = """package shop;
import example.hometturi.itctrace.*;

public final class Main {
    public static void main(String[] words) throws InterruptedException {
        TracedThread left = Traced.start("left", () -> { shop.a.Store.put(); shop.b.Store.put(); });
        TracedThread right = Traced.start("right", () -> { shop.a.Store.put(); shop.b.Store.put(); });
        left.join();
        right.join();
    }
}
"""
JAVA_STORE = """package shop.PACKAGE;
import example.hometturi.itctrace.Traced;
public final class Store {
    public static void put() {
        Traced.touch("stock of PACKAGE", true);
    }
}
"""
RUST = """fn main() {
    let reporter = itc_trace::Reporter::from_environment().unwrap().unwrap();
    reporter.touch_across(&reporter.task, "stock row", false).unwrap();
    reporter.touch_across(&reporter.task, "stock row", true).unwrap();
    reporter.touch(&reporter.task, "own \\"row\\"", true).unwrap();
    let child = reporter.name("child");
    reporter.spawn(&reporter.task, &child).unwrap();
    reporter.touch(&child, "own \\"row\\"", true).unwrap();
    reporter.end(&child).unwrap();
    reporter.join(&reporter.task, &child).unwrap();
    reporter.close().unwrap();
}
"""
SERVER = """
import itc_trace, socket, sys
itc_trace.touch("x", write=True)
door = socket.create_server(("127.0.0.1", int(sys.argv[1])))
print("listening", flush=True)
while True:
    door.accept()[0].close()
"""

ROW = '{"event":%d,"task":"p","thing":"stock","kind":"write","file":"shop.go","line":7,"label":"write stock","part":%d}\n'
MOST_GROWTH = 1.15
"""So many times as much memory four times as many lines may take."""


class Journals(unittest.TestCase):
    def test_no_journal_is_kept_while_its_lines_are_handed_on(self) -> None:
        few, many = self.most_kept(1_000), self.most_kept(4_000)
        self.assertLess(many, MOST_GROWTH * few)

    def most_kept(self, rows: int) -> int:
        """So many bytes are kept at most while the lines of a journal of so many rows are handed on."""
        with tempfile.TemporaryDirectory() as folder:
            described = Described("one", ["true"], folder)
            running = Running(System([described]), 0, folder)
            over: Any = SimpleNamespace(name="one", described=described, is_ended_by_us=False)
            running.processes.append(over)
            text = "".join(ROW % (number, 1 + number // 1000) for number in range(1, rows + 1)) + END_ROW
            Path(folder, "one.journal").write_text(text)
            tracemalloc.start()
            try:
                self.assertEqual(sum(1 for _ in running.lines()), rows + 2)
                return tracemalloc.get_traced_memory()[1]
            finally:
                tracemalloc.stop()


class Systems(unittest.TestCase):
    def setUp(self) -> None:
        self.folder = Path(self.enterContext(tempfile.TemporaryDirectory()))

    def file(self, **processes: dict[str, Any]) -> str:
        """The file of a system. JSON's texts, lists and numbers are TOML, too."""
        text = "".join(
            f"[process.{name}]\n" + "".join(f"{key} = {json.dumps(value)}\n" for key, value in keys.items()) for name, keys in processes.items()
        )
        return self.written("system.toml", text)

    def written(self, name: str, text: str) -> str:
        (self.folder / name).write_text(text)
        return str(self.folder / name)

    def python(self, name: str, text: str, *words: str) -> list[str]:
        return [sys.executable, self.written(f"{name}.py", text), *words]

    def run_system(self, *words: str, **processes: Any) -> "subprocess.CompletedProcess[str]":
        return run_system(*words, self.file(**processes))

    # A system that hangs

    def test_a_system_is_ended_after_its_time_and_says_what_its_processes_wait_for(self) -> None:
        racing = self.python("racing", """
import threading, itc_trace
def sell():
    itc_trace.touch("stock", write=True)
threads = [threading.Thread(target=sell) for _ in range(2)]
for thread in threads: thread.start()
for thread in threads: thread.join()
threading.Event().wait()  # waits
""")
        other = self.python("other", "import queue\nqueue.Queue().get()  # takes\n")
        plain = {"command": ["sleep", "1000"], "traced": False}
        ran = self.run_system("--timeout", "5", store={"command": racing}, seller={"command": other}, plain=plain)
        self.assertEqual(ran.returncode, Verdict.RACES, ran.stderr)
        self.assertRegex(ran.stderr, r"store waits for an event .*for \d.* s at .*racing.py:8:  .*# waits\n")
        self.assertRegex(ran.stderr, r"selle waits for an item of a queue for \d.* s at .*other.py:2:  .*# takes\n")
        self.assertIn("what process plain waits for is not known\n", ran.stderr)
        self.assertIn("itc_trace: race on stock of store\n", ran.stderr)
        self.assertIn("itc_trace: incomplete: this system was ended after 5 s", ran.stderr)

    def test_a_system_that_ends_before_its_time_is_as_ever(self) -> None:
        ran = self.run_system("--timeout", "100", one={"command": self.python("one", "print(1)\n")})
        self.assertEqual((ran.returncode, ran.stdout), (Verdict.NO_RACE, "one | 1\n"), ran.stderr)

    # What is found

    def test_the_example_of_three_processes(self) -> None:
        for words, status in (((), Verdict.RACES), (("fixed",), Verdict.NO_RACE)):
            day, stock = [sys.executable, str(EXAMPLES / "day.py")], str(self.folder / "stock")
            address = str(self.folder / f"address{len(words)}")
            ran = self.run_system(
                store={"command": [*day, "store", address, stock]},
                seller={"command": [*day, "seller", address, *words], "after": ["store"]},
                audit={"command": [*day, "audit", address, stock, *words], "after": ["store"]},
            )
            self.assertEqual(ran.returncode, status, ran.stderr)
            self.assertEqual(ran.stderr.count("in this run"), 1)
            self.assertRegex(ran.stdout, r"(?m)^audit \| left: ")
        self.assertIn("no race in this run", ran.stderr)

    def test_a_thing_is_private_to_its_process_unless_it_is_said_to_be_one_across(self) -> None:
        for across, status in (("False", Verdict.NO_RACE), ("True", Verdict.RACES)):
            command = self.python("sell", STOCK.replace("ACROSS", across))
            ran = self.run_system(one={"command": command}, two={"command": command})
            self.assertEqual(ran.returncode, status, ran.stderr)

    def test_the_name_of_a_private_thing_says_whose_it_is(self) -> None:
        command = self.python("racing", """
import threading, itc_trace
threads = [threading.Thread(target=lambda: itc_trace.touch("stock", write=True)) for _ in range(2)]
for thread in threads: thread.start()
for thread in threads: thread.join()
""")
        ran = self.run_system(store={"command": command})
        self.assertIn("itc_trace: race on stock of store\n", ran.stderr)

    def test_the_trace_is_kept_for_later(self) -> None:
        export = str(self.folder / "kept")
        command = self.python("sell", STOCK.replace("ACROSS", "True"))
        ran = self.run_system("--export", export, one={"command": command}, two={"command": command})
        again = run_python("-m", "itc_trace", "races", export, f"{export}.journal")
        self.assertEqual((again.returncode, again.stdout), (ran.returncode, ran.stderr))

    @unittest.skipUnless(shutil.which("javac") and shutil.which("java"), "no Java")
    def test_a_lost_update_between_python_and_java(self) -> None:
        out, sources = str(self.folder / "out"), JAVA_PACKAGE
        seller = self.written("Seller.java", JAVA)
        quick = ("-J-XX:TieredStopAtLevel=1", "-J-XX:+UseSerialGC")
        subprocess.run(["javac", *quick, "-d", out, *map(str, sorted(sources.glob("*.java"))), seller], check=True)
        self.assert_lost_update(["java", "-cp", out, "Seller"], {"Seller.java:6", "Seller.java:7"})

    @unittest.skipUnless(shutil.which("rustc") and shutil.which("cc"), "no Rust")
    def test_a_lost_update_between_python_and_rust(self) -> None:
        library, seller = str(self.folder / "libitc_trace.rlib"), str(self.folder / "seller")
        source = self.written("seller.rs", RUST)
        words = ["rustc", "--edition", "2021"]
        subprocess.run([*words, "--crate-type", "rlib", str(CLIENTS / "rust" / "itc_trace.rs"), "-o", library], check=True)
        subprocess.run([*words, "--extern", f"itc_trace={library}", source, "-o", seller], check=True)
        self.assert_lost_update([seller], {"seller.rs:3", "seller.rs:4"})

    def assert_lost_update(self, command: list[str], lines: set[str]) -> None:
        """The two lines of another language race with those of a Python program, and nothing else does."""
        python = self.python("store", 'import itc_trace\nitc_trace.touch("stock row", across=True)\nitc_trace.touch("stock row", True, across=True)\n')
        ran = self.run_system("--all", storekeeper={"command": python}, sellerkeeper={"command": command})
        self.assertEqual(ran.returncode, Verdict.RACES, ran.stderr)
        told = {line.split(":  ")[0].split("/")[-1].split()[-1].removesuffix(":") for line in ran.stderr.splitlines() if " at " in line}
        self.assertEqual(told, {"store.py:2", "store.py:3", *lines})
        self.assertRegex(ran.stderr, "threads (storekeeper and sellerkeeper|sellerkeeper and storekeeper): nothing orders them")
        self.assertEqual(ran.stderr.count("in this run"), 1)
        self.assertNotIn("own", ran.stderr)

    @unittest.skipUnless(shutil.which("javac") and shutil.which("java"), "no Java")
    def test_places_of_java_and_whole_names_of_processes(self) -> None:
        """The file of the system lies elsewhere, two processes begin alike, and two classes of two packages have one name."""
        out, app = str(self.folder / "app" / "out"), self.folder / "app" / "src"
        written = [app / "shop" / "Main.java"]
        (app / "shop").mkdir(parents=True)
        written[0].write_text(JAVA_MAIN)
        for package in ("a", "b"):
            (app / "shop" / package).mkdir()
            written.append(app / "shop" / package / "Store.java")
            written[-1].write_text(JAVA_STORE.replace("PACKAGE", package))
        sources = JAVA_PACKAGE
        quick = ("-J-XX:TieredStopAtLevel=1", "-J-XX:+UseSerialGC")
        subprocess.run(["javac", *quick, "-d", out, *map(str, [*sorted(sources.glob("*.java")), *written])], check=True)
        (self.folder / "conf").mkdir()
        described = {"command": ["java", "-cp", out, "shop.Main"], "directory": "."}
        ran = run_system("--github", "--sarif", "sarif", self.written("conf/system.toml", "".join(
            f"[process.{name}]\n" + "".join(f"{key} = {json.dumps(value)}\n" for key, value in described.items())
            for name in ("warehouse_one", "warehouse_two")
        )), cwd=str(self.folder))
        self.assertEqual(ran.returncode, Verdict.RACES, ran.stderr)
        for package, process in (("a", "one"), ("b", "one"), ("a", "two"), ("b", "two")):
            place = f'write at shop.{package}.Store.put (Store.java:5):  Traced.touch("stock of {package}", true);'
            tasks = rf"threads warehouse_{process}_(left|right) and warehouse_{process}_(left|right): nothing orders them"
            self.assertRegex(ran.stderr, rf"race on stock of {package} of warehouse_{process}\n    {re.escape(place)}\n    {re.escape(place)}\n    {tasks}")
        due = {f"app/src/shop/{package}/Store.java" for package in "ab"}
        self.assertEqual(set(re.findall(r"(?m)^::error file=(.*?),", ran.stdout)), due)
        self.assertEqual(set(re.findall(r'"uri": "(.*Store.java)"', (self.folder / "sarif").read_text())), due)

    # Starting and ending

    def test_a_process_waits_for_those_that_it_comes_after(self) -> None:
        port = self.enterContext(kept_port())
        client = self.python("client", "import socket, sys\nsocket.create_connection(('127.0.0.1', int(sys.argv[1]))).close()\nprint('begun')\n", str(port))
        for how in [dict[str, Any](ready="listening"), dict[str, Any](port=port)]:
            server = self.python("server", "import time\ntime.sleep(0.3)\n" + SERVER, str(port))
            ran = self.run_system(
                client={"command": client, "after": ["server"], "traced": False}, server={"command": server, "service": True, **how})
            self.assertEqual(ran.returncode, Verdict.NO_RACE, ran.stderr)
            self.assertEqual(set(ran.stdout.splitlines()), {"server | listening", "client | begun"})

    def test_each_process_is_told_where_to_report(self) -> None:
        words = " ".join(f"${name}" for name in ("ITC_TRACE_TENANT", "ITC_TRACE_PROCESS", "ITC_TRACE_PORT", "ITC_TRACE_JOURNAL"))
        ran = self.run_system(store={"command": ["sh", "-c", f"echo {words}"], "traced": False})
        tenant, process, port, journal = ran.stdout.removeprefix("store | ").split()
        self.assertEqual((tenant, process, port.isdigit(), Path(journal).name), ("trace", "store", True, "store.journal"))

    def test_lines_are_told_with_whose_they_are(self) -> None:
        shell = ["sh", "-c", "echo one; echo two >&2; printf three"]
        ran = self.run_system(a={"command": shell, "traced": False})
        self.assertEqual(ran.stdout, "a | one\na | three\n")
        self.assertIn("a | two\n", ran.stderr)

    def test_the_status_is_the_first_that_is_not_0(self) -> None:
        ran = self.run_system(a={"command": self.python("a", "import itc_trace, sys\nitc_trace.touch('x')\nsys.exit(7)\n")})
        self.assertEqual(ran.returncode, 7, ran.stderr)
        self.assertIn("itc_trace: process a ended with status 7\n", ran.stderr)

    def test_each_of_many_that_end_at_once_is_told(self) -> None:
        names = ["one", "two", "three"]
        ran = run_python("-c", SLOW_TELLING, self.file(**{name: {"command": ["sh", "-c", "exit 3"], "traced": False} for name in names}))
        told = [line for line in ran.stderr.splitlines() if line.endswith("ended with status 3")]
        self.assertEqual(sorted(told), sorted(f"itc_trace: process {name} ended with status 3" for name in names))
        self.assertEqual(ran.returncode, 3)

    def test_the_end_of_a_process_may_be_taken_at_once(self) -> None:
        ran = run_python("-c", SLOW_QUEUE, self.file(one={"command": ["sh", "-c", "exit 3"], "traced": False}))
        self.assertEqual(ran.returncode, 3, ran.stderr)

    def test_signals_end_it_and_its_processes(self) -> None:
        for number in (signal.SIGTERM, signal.SIGINT):
            server = self.python("server", SERVER, str(self.enterContext(kept_port())))
            file = self.file(server={"command": server})
            environment = {**os.environ, "PYTHONPATH": str(PACKAGE)}
            words = [sys.executable, "-c", PATIENT, "system", file]
            with subprocess.Popen(words, stdout=subprocess.PIPE, stderr=subprocess.PIPE, text=True, env=environment) as system:
                assert system.stdout is not None
                self.assertEqual(system.stdout.readline(), "server | listening\n")
                system.send_signal(number)
                _, told = system.communicate(timeout=WAIT)
            self.assertEqual(system.returncode, Verdict.INCOMPLETE, told)
            self.assertIn(f"incomplete: this system was ended by {number.name}", told)

    def test_a_signal_while_a_process_is_being_started_ends_that_process_too(self) -> None:
        ran = run_python("-c", SIGNAL_AT_START, self.file(one={"command": ["sleep", "600"], "traced": False}))
        self.assert_incomplete(ran, "this system was ended by SIGTERM")

    def test_a_process_that_does_not_end_is_killed(self) -> None:
        stubborn = ["sh", "-c", "trap '' TERM; echo begun; while :; do sleep 0.1; done"]
        ran = run_python("-c", SHORT_GRACE, self.file(
            a={"command": stubborn, "traced": False, "service": True, "ready": "begun"}, b={"command": ["true"], "traced": False, "after": ["a"]}))
        self.assertEqual(ran.returncode, Verdict.INCOMPLETE, ran.stderr)
        self.assertIn("process a did not end within 1 s, and was killed", ran.stderr)

    # What was not seen

    def assert_incomplete(self, ran: "subprocess.CompletedProcess[str]", told: str) -> None:
        self.assertEqual(ran.returncode, Verdict.INCOMPLETE, ran.stderr)
        self.assertRegex(ran.stderr, f"(?m)^itc_trace: incomplete: .*{told}")

    def test_a_process_that_is_killed(self) -> None:
        command = self.python("dying", "import itc_trace, os, time\nitc_trace.touch('x')\ntime.sleep(0.2)\nos.kill(os.getpid(), 9)\n")
        self.assert_incomplete(self.run_system(dying={"command": command}), "process dying was ended by SIGKILL")

    def test_a_process_that_reports_nothing(self) -> None:
        self.assert_incomplete(self.run_system(quiet={"command": ["true"]}), "process quiet reported nothing")

    def test_a_process_that_is_started_again_loses_nothing(self) -> None:
        program = self.written("twice.py", REPORTING)
        twice = ["sh", "-c", f"'{sys.executable}' '{program}'; '{sys.executable}' '{program}'"]
        ran = self.run_system(twice={"command": twice})
        self.assertEqual(ran.returncode, Verdict.NO_RACE, ran.stderr)
        self.assertIn("itc_trace: process twice reported 2 times: it was started again\n", ran.stderr)
        self.assertIn("2 places of 2 things", ran.stderr)

    def test_a_process_that_ends_before_it_is_ready(self) -> None:
        ran = self.run_system(
            a={"command": ["true"], "traced": False, "ready": "never"}, b={"command": ["sh", "-c", "echo b"], "traced": False, "after": ["a"]})
        self.assert_incomplete(ran, "process a ended before it was ready")
        self.assertNotIn("b |", ran.stdout)

    def test_a_service_that_is_never_ready_ends_the_system(self) -> None:
        """Its line does not come, or nobody listens at its port: with another process that waits for it, and with none."""
        port = self.enterContext(kept_port())
        serving = {"command": ["sh", "-c", "echo begun; exec sleep 600"], "traced": False, "service": True}
        client = {"command": ["echo", "ran"], "traced": False, "after": ["a"]}
        for named, lacks in (({"ready": "never"}, "none of its lines has 'never'"), ({"port": port}, f"nobody listens at port {port}")):
            for others in ({"b": client}, {}):
                with self.subTest(named=named, others=others):
                    ran = run_python("-c", IMPATIENT, self.file(a={**serving, **named}, **others))
                    self.assert_incomplete(ran, f"process a was not ready within 2 s: {lacks}")
                    self.assertIn(f"itc_trace: waiting until process a is ready: {lacks} yet\n", ran.stderr)
                    self.assertEqual(ran.stdout, "a | begun\n")

    def test_services_alone_run_until_they_are_ended(self) -> None:
        file = self.file(a={"command": ["sh", "-c", "echo begun; exec sleep 600"], "traced": False, "service": True, "ready": "begun"})
        words = [sys.executable, "-c", IMPATIENT, file]
        with subprocess.Popen(words, stderr=subprocess.PIPE, text=True, env={**os.environ, "PYTHONPATH": str(PACKAGE)}) as system:
            assert system.stderr is not None
            self.assertEqual(system.stderr.readline(), "itc_trace: all processes are services, and run until this command is ended, as by Ctrl-C\n")
            system.send_signal(signal.SIGINT)
            _, told = system.communicate(timeout=WAIT)
        self.assertEqual(system.returncode, Verdict.INCOMPLETE, told)

    def test_a_server_that_is_no_service_is_named_once_it_alone_runs(self) -> None:
        slow = {"command": ["sh", "-c", "echo begun; sleep 4"], "traced": False, "ready": "begun"}
        ran = run_python("-c", IMPATIENT, self.file(a=slow, b={"command": ["true"], "traced": False, "after": ["a"]}))
        self.assertIn("itc_trace: waiting for the end of a: with service = true", ran.stderr)
        self.assertEqual(ran.stderr.count("waiting for"), 1)

    def test_a_port_that_somebody_else_listens_at(self) -> None:
        with socket.create_server(("127.0.0.1", 0)) as door:
            port = door.getsockname()[1]
            ran = self.run_system(a={"command": ["sleep", "600"], "traced": False, "port": port})
        self.assertEqual(ran.returncode, 2, ran.stderr)
        self.assertEqual(ran.stderr, f"itc_trace: process a: somebody listens at port {port} already: end that program, or name another port\n")

    # Files that are wrong

    def assert_refused(self, text: str, told: str) -> None:
        ran = run_python("-m", "itc_trace", "system", self.written("system.toml", text))
        self.assertEqual((ran.returncode, ran.stdout), (2, ""), ran.stderr)
        self.assertRegex(ran.stderr, r"\Aitc_trace: [^\n]*\n\Z")
        self.assertIn(told, ran.stderr)

    def test_each_fault_of_a_file_is_told(self) -> None:
        command = '[process.a]\ncommand = ["true"]\n'
        for text, told in (
            ("[process", "is no TOML"),
            ("", "the file has no table process"),
            ("process = 3\n", "the file has no table process"),
            ("[process]\na = 3\n", "process a is no table"),
            ("[process.a]\nready = 'x'\n", "process a has no command"),
            ("[process.a]\ncommand = 'true'\n", "command is a list of texts"),
            (command + "port = 'x'\n", "port is a number from 1 to 65535"),
            (command + "port = 70000\n", "port is a number from 1 to 65535"),
            (command + "later = true\n", "there is no key later"),
            (command + "service = 1\n", "service is true or false"),
            (command + "after = ['b']\n", "a comes after b, and there is no process of that name"),
            (command + "after = ['b']\n[process.b]\ncommand = ['true']\nafter = ['a']\n", "processes come after one another"),
            (command + "[process.'a b']\ncommand = ['true']\n", "a name has letters"),
            ("[process.a]\ncommand = ['/no_such']\n", "process a cannot be started: /no_such"),
            ("[process.a]\ncommand = ['python3', '-c', 'pass']\n", "only a program in a file or a module can be traced"),
            ("export = '/no_such_folder/x'\n" + command, "/no_such_folder/x cannot be written"),
        ):
            with self.subTest(text=text):
                self.assert_refused(text, told)

    def test_a_missing_file(self) -> None:
        ran = run_python("-m", "itc_trace", "system", "/no_such.toml")
        self.assertEqual((ran.returncode, ran.stderr), (2, "itc_trace: /no_such.toml cannot be read: No such file or directory\n"))

    def test_a_port_in_the_environment_that_is_none(self) -> None:
        ran = run_python(self.written("reporting.py", REPORTING), ITC_TRACE_PORT="many")
        self.assertIn("ITC_TRACE_PORT is many, which is no port", ran.stderr)


SLOW_TELLING = """
import sys, time
from itc_trace.cli import system, commands as __main__
tell_end = system.Running._tell_end
def tell_slowly(self, process):
    time.sleep(1)
    tell_end(self, process)
system.Running._tell_end = tell_slowly
sys.argv[1:1] = ["system"]
sys.exit(__main__.main())
"""
SLOW_QUEUE = """
import queue, sys, time
from itc_trace.cli import system, commands as __main__
class SlowQueue(queue.SimpleQueue):
    def put(self, item):
        super().put(item)
        time.sleep(1)
system.SimpleQueue = SlowQueue
sys.argv[1:1] = ["system"]
sys.exit(__main__.main())
"""
SIGNAL_AT_START = """
import os, signal, sys
from itc_trace.cli import commands as __main__, system
class Started(system.Process):
    def __init__(self, *words):
        super().__init__(*words)
        os.kill(os.getpid(), signal.SIGTERM)  # The system has not noted this process yet.
system.Process = Started
sys.argv[1:1] = ["system"]
sys.exit(__main__.main())
"""
IMPATIENT = """
import sys
from itc_trace.cli import system, commands
system.READY_SECONDS, system.SILENT_SECONDS = 2.0, 1.0
sys.argv[1:1] = ["system"]
sys.exit(commands.main())
"""
SHORT_GRACE = """
import sys
from itc_trace.cli import system, commands as __main__
system.GRACE_SECONDS = 1.0
sys.argv[1:1] = ["system"]
sys.exit(__main__.main())
"""

if __name__ == "__main__":
    unittest.main()
