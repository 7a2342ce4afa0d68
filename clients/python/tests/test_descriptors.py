"""The package's own files in the program's process: they are not in its way, and it does not close them."""

from __future__ import annotations

import os
import tempfile
import unittest
from pathlib import Path

from itc_trace import Verdict
from itc_trace.record import own_files
from itc_trace.record.journal_file import JournalFile

from .support import ProgramCase, needs, python_with, run_python, run_traced

BEGIN = """
import ctypes, os, threading, time

stock = {"left": 2}

def sell():
    stock["left"] -= 1

def race():
    threads = [threading.Thread(target=sell) for _ in range(2)]
    for thread in threads: thread.start()
    for thread in threads: thread.join()

def files(*words):
    for file in os.listdir("/proc/self/fd"):
        try:
            path = os.readlink(f"/proc/self/fd/{file}")
        except OSError:
            continue
        if any(word in path for word in words):
            yield int(file)

"""
CLOSES = {
    "closerange": "os.closerange(3, 256)",
    "closerange of all": "os.closerange(3, 65536)",
    "a loop of close": "for file in range(3, 4096):\n    try: os.close(file)\n    except OSError: pass",
    "a loop over what is open": "for file in os.listdir('/proc/self/fd'):\n    if int(file) > 2:\n        try: os.close(int(file))\n        except OSError: pass",
    "dup2": "for file in list(files('journal', 'socket')): os.dup2(1, file); os.write(file, b'mine')",
    "chdir": "os.chdir('/')",
    "close by other means": "for file in files('journal'): ctypes.CDLL(None).close(file)",
    "dup2 by other means": "for file in files('journal'): ctypes.CDLL(None).dup2(1, file)",
}
NUMBERS = """
import os, threading
thread = threading.Thread(target=int); thread.start(); thread.join()
one, (two, three) = open(os.devnull), os.pipe()
four = os.dup(one.fileno())
print(one.fileno(), two, three, four)
try:
    os.close(17)
except OSError as error:
    print(error)
os.dup2(two, 17)
os.close(17)
os.closerange(17, 20)
"""
CLOSES_AND_GOES_ON = BEGIN + """
import sys
child = os.fork()
if child == 0:
    for file in range(3, 4096):
        try: os.close(file)
        except OSError: pass
    os.execv(sys.executable, [sys.executable, "-c", "print('ran', flush=True)"])
print(os.waitpid(child, 0)[1])
"""
WAITS = """
import socket, threading, time
import itc_trace
socket.setdefaulttimeout(0.05)
with itc_trace.tracing(watched=None) as traced:
    time.sleep(0.3)
print(traced.races().verdict().name)
"""
JOBS = """
import math
from joblib import Parallel, delayed
print(Parallel(n_jobs=2)(delayed(math.sqrt)(one) for one in (0, 1, 4)))
"""


class Descriptors(ProgramCase):
    def test_a_program_that_closes_its_files_is_seen_before_and_after(self) -> None:
        for name, closes in CLOSES.items():
            with self.subTest(name):
                ran = run_traced(self.program(f"{BEGIN}race()\n{closes}\nrace()\n"))
                self.assertEqual(ran.returncode, Verdict.RACES, ran.stderr)
                self.assertIn("nothing orders them; 6 times", ran.stderr)
                self.assertNotIn("incomplete", ran.stderr)

    def test_a_default_of_the_program_for_all_sockets_is_not_that_of_the_session(self) -> None:
        ran = run_python(self.program(WAITS))
        self.assertEqual(ran.stdout, "NO_RACE\n", ran.stderr)

    def test_the_numbers_of_the_programs_files_are_those_of_an_untraced_one(self) -> None:
        program = self.program(NUMBERS)
        self.assertEqual(run_traced("--quiet", program).stdout, run_python(program).stdout)

    def test_a_forked_child_that_closes_all_and_becomes_another_program_stops_no_tracing(self) -> None:
        for words in ((), ("--watch-nothing",)):
            ran = run_traced(*words, self.program(CLOSES_AND_GOES_ON))
            self.assertEqual((ran.returncode, ran.stdout), (0, "ran\n0\n"), ran.stderr)
            self.assertNotIn("tracing stops", ran.stderr)

    @needs("python3-joblib", "joblib")
    def test_jobs_of_joblib_run_in_their_processes(self) -> None:
        python, program = python_with("joblib"), self.program(JOBS)
        ran = run_traced("--watch-nothing", program, python=python)
        self.assertEqual(ran.stdout, run_python(program, python=python).stdout, ran.stderr)
        self.assertNotIn("tracing stops", ran.stderr)
        self.assertNotIn("Errno", ran.stderr)


class OwnFiles(unittest.TestCase):
    def test_a_number_that_another_file_has_by_now_is_the_programs(self) -> None:
        first, second = os.pipe()
        own_files.spare(first)
        self.assertTrue(own_files.is_own(first))
        with open(os.devnull, "rb") as other:
            os.dup2(other.fileno(), first)  # As if it were closed, and taken anew.
        self.assertEqual((own_files.is_own(first), own_files.between(first, first + 1)), (False, []))
        os.close(first)
        os.close(second)


class Lost(ProgramCase):
    """What cannot be survived is told."""

    def assert_told(self, text: str, why: str) -> None:
        ran = run_traced(self.program(BEGIN + text))
        self.assertIn(f"itc_trace: incomplete: {why}", ran.stderr)
        self.assertIn(ran.returncode, (Verdict.RACES, Verdict.INCOMPLETE), ran.stderr)

    def test_a_connection_that_the_program_closed_is_told_as_that(self) -> None:
        closes = "race()\ntime.sleep(0.2)\nfor file in files('socket'): ctypes.CDLL(None).close(file)\nrace()\n"
        self.assert_told(closes, "the program has closed the connection to the collector")

    def test_a_journal_that_the_program_removed_is_told_as_that(self) -> None:
        removes = "race()\nfor file in files('journal'): os.unlink(os.readlink(f'/proc/self/fd/{file}'))\n"
        self.assert_told(removes, "the journal breaks off: the program has removed its file")

    def test_a_file_without_room_is_told_as_that_and_what_was_seen_is_kept(self) -> None:
        fills = "race()\ntime.sleep(0.2)\nimport resource\nresource.setrlimit(resource.RLIMIT_FSIZE, (6000, 6000))\nfor _ in range(40): race()\n"
        self.assert_told(fills, "the journal cannot be written: File too large")
        ran = run_traced(self.program(BEGIN + fills))
        self.assertEqual(ran.returncode, Verdict.RACES, ran.stderr)

    def test_a_last_line_takes_the_room_of_those_before_it(self) -> None:
        with tempfile.TemporaryDirectory() as folder:
            path = Path(folder, "journal")
            journal = JournalFile(str(path))
            journal.write("one\n" * 40 + "cut off")
            journal._write_over(b"a last line\n")
            journal.close()
            lines = path.read_text().splitlines()
        self.assertEqual((set(lines[:-1]), lines[-1]), ({"one"}, "a last line"))
        self.assertGreater(len(lines), 30)


if __name__ == "__main__":
    unittest.main()
