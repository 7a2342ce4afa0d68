"""Where tracing ends before the program does: limits that are reached, a collector that is gone, a process that forks."""

from __future__ import annotations

import os
import subprocess
import sys
import tempfile
import threading
import unittest

from itc_trace import Collector, Session, touch, tracing
from itc_trace.record.collector import PORTS_TO_TRY, find_program, free_port
from itc_trace.record.journal import read_journal

from .support import PACKAGE, ProgramCase, kept_port, run_python, run_traced

COUNTING = """
import threading, itc_trace
lock, done = threading.Lock(), []
def work():
    for _ in range(200):
        with lock:
            itc_trace.touch("x", write=True)
    done.append(1)
threads = [threading.Thread(target=work) for _ in range(8)]
for thread in threads:
    thread.start()
for thread in threads:
    thread.join()
print("done:", len(done))
"""

HANDING_OVER = """
import threading, itc_trace
there, back = threading.Semaphore(0), threading.Semaphore(0)
def work():
    for _ in range(200):
        there.acquire()
        itc_trace.touch("x", write=True)
        back.release()
threads = [threading.Thread(target=work)] + [threading.Thread(target=int) for _ in range(8)]
for thread in threads:
    thread.start()
for _ in range(200):
    there.release()
    back.acquire()
    itc_trace.touch("x", write=True)
for thread in threads:
    thread.join()
print("done")
"""

MANY_JOBS = """
import contextlib, itc_trace, sys, threading
from concurrent.futures import ThreadPoolExecutor
lock = threading.Lock() if "locked" in sys.argv else contextlib.nullcontext()
def work(number):
    own = [number]
    own.append(number)
    if number >= 1500 - ("twice" in sys.argv):
        with lock:
            itc_trace.touch("x", write=True)
with ThreadPoolExecutor(2) as pool:
    list(pool.map(work, range(1501)))
"""


class Served:
    """A collector with limits."""

    def __init__(self, *limits: str) -> None:
        for _ in range(PORTS_TO_TRY):
            self.port = free_port()
            words = [find_program(), "serve", "--port", str(self.port), *limits, "trace"]
            self.process = subprocess.Popen(words, stdout=subprocess.PIPE)
            assert self.process.stdout is not None
            if self.process.stdout.readline().startswith(b"listening"):
                return
            self.end()  # The port was taken in between, say.
        raise AssertionError("no collector serves")

    def __enter__(self) -> Served:
        return self

    def __exit__(self, *_: object) -> None:
        self.end()

    def end(self) -> None:
        self.process.kill()
        self.process.wait()
        assert self.process.stdout is not None
        self.process.stdout.close()


class Ends(ProgramCase):
    def test_a_full_trace_stops_tracing_and_not_the_program(self) -> None:
        for limits, reply in ((["--events", "100"], "413 events full"), (["--tasks", "5"], "414 tasks full"),
                              (["--messages", "3"], "415 messages full")):
            with self.subTest(reply=reply), Served(*limits) as served:
                ran = run_traced("--quiet", "--port", str(served.port), self.program(HANDING_OVER))
                self.assertEqual((ran.returncode, ran.stdout), (67, "done\n"), ran.stderr)
                stops, incomplete, summary = ran.stderr.splitlines()
                self.assertEqual(stops, f"itc_trace: tracing stops: the trace is full ({reply})")
                self.assertEqual(incomplete, f"itc_trace: incomplete: the trace is full ({reply})")
                self.assertTrue(summary.startswith("itc_trace: no race in what was seen: "), summary)

    def test_a_full_trace_tells_no_race_that_is_none(self) -> None:
        with Served("--events", "300") as served, tempfile.NamedTemporaryFile("r") as journal:
            ran = run_traced("--port", str(served.port), "--journal", journal.name, self.program(HANDING_OVER))
            self.assertEqual(ran.returncode, 67, ran.stderr)
            self.assertLessEqual(len(list(read_journal(journal))), 300)

    def test_jobs_that_are_no_tasks_of_their_own_are_no_all_clear(self) -> None:
        program = self.program(MANY_JOBS)
        for words in ((), ("twice", "locked")):
            self.assertEqual(run_traced(program, *words).returncode, 0)
        ran = run_traced(program, "twice")
        self.assertIn(ran.returncode, (66, 67), ran.stderr)  # With 66 the two were run by two threads.
        self.assertIn("itc_trace: incomplete: more than 1024 jobs were given to pools", ran.stderr)

    def test_a_collector_that_ends_stops_tracing_and_not_the_program(self) -> None:
        with Served() as served, tempfile.NamedTemporaryFile("r") as journal:
            with tracing(port=served.port, journal=journal.name):
                touch("x")
                served.process.kill()
                served.process.wait()
                lock, done = threading.Lock(), []

                def work() -> None:
                    for _ in range(100):
                        with lock:
                            touch("x", write=True)
                    done.append(1)

                threads = [threading.Thread(target=work) for _ in range(4)]
                for thread in threads:
                    thread.start()
                for thread in threads:
                    thread.join()
            self.assertEqual(len(done), 4)

    def test_a_collector_that_ends_is_told_in_one_line(self) -> None:
        program = self.program(f"import os, signal, time\nos.kill(int(os.environ['VICTIM']), signal.SIGKILL)\n{COUNTING}")
        with Served() as served:
            ran = run_traced("--port", str(served.port), program, VICTIM=str(served.process.pid))
            self.assertEqual((ran.returncode, ran.stdout), (67, "done: 8\n"), ran.stderr)
            stops, incomplete, summary = ran.stderr.splitlines()
            self.assertEqual(stops, "itc_trace: tracing stops: the collector is gone")
            self.assertEqual(incomplete, "itc_trace: incomplete: the collector is gone")
            self.assertTrue(summary.startswith("itc_trace: no race in what was seen: "), summary)

    def test_no_collector_is_told_before_the_program_runs(self) -> None:
        ran = run_traced("--port", str(self.enterContext(kept_port())), self.program(COUNTING))
        self.assertEqual((ran.returncode, ran.stdout), (2, ""), ran.stderr)

    def test_a_program_s_own_status_stays(self) -> None:
        for text, status in (("import sys; sys.exit(7)", 7), ("raise ValueError", 1), ("import os; os._exit(9)", 9),
                             ("import os, signal; os.kill(os.getpid(), signal.SIGTERM)", 67)):
            with self.subTest(text=text):
                self.assertEqual(run_traced(self.program(text)).returncode, status)

    def test_an_exit_at_once_loses_no_race(self) -> None:
        text = COUNTING.replace("with lock:", "if True:") + "import os; os._exit(0)"
        self.assertEqual(run_traced(self.program(text)).returncode, 66)

    def test_a_traceback_is_the_program_s_own(self) -> None:
        program = self.program("def fail():\n    raise ValueError('x')\nfail()\n")
        traced, plain = run_traced("--quiet", program), run_python(program)
        self.assertEqual(traced.stderr, plain.stderr)

    def test_words_and_paths_are_the_program_s_own(self) -> None:
        text = "import sys, os; print(sys.argv, __name__, __file__, sys.path[0], sys.flags.optimize)"
        program = self.program(text)
        for words in ([], ["a", "--port", "1"]):
            self.assertEqual(run_traced("--quiet", program, *words).stdout, run_python(program, *words).stdout)

    def test_a_program_that_is_named_by_half_a_path_finds_what_lies_beside_it(self) -> None:
        text = "import os, sys\nos.chdir('/')\nprint(__file__, open(__file__).readline(), sys.argv, __loader__.get_filename('__main__'))\n"
        program = os.path.relpath(self.program(text + "import itc_trace\nitc_trace.touch('x')\n1 / 0\n"))
        traced, plain = run_traced("--quiet", program), run_python(program)
        self.assertEqual((traced.stdout, traced.stderr), (plain.stdout, plain.stderr))
        self.assertIn("import os, sys", plain.stdout)

    def test_what_is_told_of_a_program_calls_it_as_its_command_does(self) -> None:
        program = os.path.relpath(self.program(COUNTING.replace("with lock:", "if True:")))
        self.assertRegex(run_traced(program).stderr, rf"(?m)^ +\w+ +at {program}:\d+")

    def test_a_program_has_its_own_modules_of_the_library_s_names(self) -> None:
        names = ("calendar", "string", "secrets", "statistics", "uuid", "getpass")
        program = self.program(f"import {', '.join(names)}\nprint(*[one.MINE for one in ({', '.join(names)})])\n")
        folder = os.path.dirname(program)
        for name in names:
            with open(os.path.join(folder, f"{name}.py"), "w", encoding="utf-8") as module:
                module.write(f"MINE = {name!r}\n")
        for words in ((program,), ("-m", "program")):
            words = ("-m", "itc_trace", "run", "--quiet", *words)
            ran = subprocess.run([sys.executable, *words], cwd=folder, env={**os.environ, "PYTHONPATH": str(PACKAGE)}, capture_output=True, text=True, check=False)
            self.assertEqual((ran.stdout, ran.stderr), (" ".join(names) + "\n", ""))

    def test_a_module_is_run_as_one(self) -> None:
        ran = run_traced("--quiet", "-m", "json.tool", "--help")
        self.assertEqual(ran.stdout, run_python("-m", "json.tool", "--help").stdout)

    @unittest.skipUnless(hasattr(os, "fork"), "there is no fork here")
    def test_a_forked_child_is_a_task_of_its_own(self) -> None:
        text = """
import os, itc_trace
itc_trace.touch("x", write=True)
child = os.fork()
itc_trace.touch("x" if child else "y", write=True)
if child:
    os.waitpid(child, 0)
    print("parent")
"""
        with tempfile.NamedTemporaryFile("r") as journal:
            ran = run_traced("--quiet", "--journal", journal.name, self.program(text))
            self.assertEqual((ran.returncode, ran.stdout), (0, "parent\n"), ran.stderr)
            touches = sorted((row.task, row.thing) for row in read_journal(journal) if row.is_touch)
            self.assertEqual(touches, [("child_1", "y of child_1"), ("root", "x"), ("root", "x")])

    def test_two_runs_report_to_one_tenant(self) -> None:
        with Collector("trace") as collector:
            for _ in range(2):
                ran = run_traced("--port", str(collector.port), self.program(COUNTING))
                self.assertEqual(ran.returncode, 0, ran.stderr)
            with Session("trace", collector.port, "view") as view:
                self.assertEqual(view.task("p1")[0], "live")


if __name__ == "__main__":
    unittest.main()
