"""What a program does to itself ends as it would untraced, and never with status 0 where it was not seen to its end."""

from __future__ import annotations

import socket
import tempfile
import unittest
from pathlib import Path
from unittest import mock

from itc_trace import Verdict
from itc_trace.analyse.seeing import races_seen
from itc_trace.model.verdict import end_row

from .support import ProgramCase, run_python, run_traced

INCOMPLETE, RACE = 67, 66
PROGRAM = """
import os, signal, sys, threading, time
stock, lock = {"left": 100}, threading.Lock()
def sell():
    with lock:
        stock["left"] -= 1
def bare():
    stock["left"] -= 1
def both(function):
    threads = [threading.Thread(target=function) for _ in range(2)]
    for thread in threads:
        thread.start()
    for thread in threads:
        thread.join()
both(sell)
DOES
both(bare)
"""
FAILING_HOOK = """
import sys
def show(*error):
    raise RuntimeError("hook")
HOOK
raise ValueError("program")
"""
BLOCKED_SIGNAL = """
import os, signal, threading, time
signal.pthread_sigmask(signal.SIG_BLOCK, {signal.SIGUSR1})
os.kill(os.getpid(), signal.SIGUSR1)
time.sleep(0.05)
print(signal.sigwait({signal.SIGUSR1}).name)
"""
AT_THE_END = """
import threading
class Row:
    def __init__(self, cells):
        self.cells = cells
class Table:
    made = 0
    def __init__(self):
        self.rows, self.names = [Row([1])], {"a": 1}
    def __del__(self, row=Row):
        self.rows.append(row([2, 3]))
        self.names["b"] = len(self.rows)
        self.made += 1
        print([[cell for cell in one.cells] for one in self.rows], self.names, f"{self.made}", sorted(self.names))
        del self.rows[0], self.names
def steps():
    try:
        yield
    finally:
        rows = [1]
        rows.append(2)
        print(rows)
table, step = Table(), steps()
next(step)
thread = threading.Thread(target=int)
thread.start()
thread.join()
print(__annotations__)
"""

GOES_ON = {
    "its folder is another": "os.chdir('/')",
    "it closes all files": "os.closerange(3, 256)",
    "few files may be open": "import resource; resource.setrlimit(resource.RLIMIT_NOFILE, (6, 6))",
    "its output is closed": "os.close(1); os.close(2)",
    "its streams are gone": "sys.stdout = sys.stderr = None",
    "nothing may be written by os": "os.write = None",
    "time stands still": "time.time = lambda: 0; time.monotonic = lambda: 0.0",
    "a thread exits": "threading.Thread(target=sys.exit, args=(5,)).start()",
    "modules are gone": "sys.modules.clear()",
    "it is traced by others": "sys.settrace(lambda *any: None); sys.setprofile(lambda *any: None)",
    "it does not heed SIGTERM": "signal.signal(signal.SIGTERM, signal.SIG_IGN); os.kill(os.getpid(), signal.SIGTERM)",
}
"""What a program does before its race, which is told all the same."""

BREAKS_OFF = {
    "it kills itself": "os.kill(os.getpid(), 9)",
    "it aborts": "import resource; resource.setrlimit(resource.RLIMIT_CORE, (0, 0)); os.abort()",
    "a signal ends it": "os.kill(os.getpid(), signal.SIGUSR2); time.sleep(60)",
    "it goes on as another program": "os.execv('/bin/true', ['true'])",
    "files may not grow": "import resource; resource.setrlimit(resource.RLIMIT_FSIZE, (100, 100))",
}
"""What a program does before its race, which is seen no more."""


class BrokenRuns(ProgramCase):
    def test_a_race_is_told_whatever_the_program_did_before(self) -> None:
        for name, does in GOES_ON.items():
            with self.subTest(name):
                ended = run_traced(self.program(PROGRAM.replace("DOES", does)))
                self.assertEqual(ended.returncode, RACE, ended.stderr)
                self.assertNotIn("incomplete", ended.stderr)

    def test_a_run_that_was_not_seen_to_its_end_is_incomplete(self) -> None:
        for name, does in BREAKS_OFF.items():
            with self.subTest(name):
                ended = run_traced(self.program(PROGRAM.replace("DOES", does)))
                self.assertEqual(ended.returncode, INCOMPLETE, ended.stderr)
                self.assertIn("itc_trace: incomplete: ", ended.stderr)
                self.assertNotIn("Traceback", ended.stderr)

    def test_a_signal_that_the_program_blocks_waits_for_it(self) -> None:
        ended = run_traced(self.program(BLOCKED_SIGNAL))
        self.assertEqual((ended.returncode, ended.stdout), (0, "SIGUSR1\n"), ended.stderr)

    def test_a_hook_for_errors_that_fails_is_shown_as_untraced(self) -> None:
        for hook in ("sys.excepthook = show", "sys.excepthook = None", "sys.excepthook = lambda *any: sys.exit(5)"):
            with self.subTest(hook):
                program = self.program(FAILING_HOOK.replace("HOOK", hook))
                plain, traced = run_python(program), run_traced(program)
                self.assertEqual(traced.returncode, plain.returncode)
                self.assertEqual(_without_own_lines(traced.stderr), plain.stderr)

    def test_what_runs_while_the_interpreter_lets_go_of_modules_runs_as_untraced(self) -> None:
        program = self.program(AT_THE_END)
        plain = run_python(program)
        self.assertIn("[[1], [2, 3]] {'a': 1, 'b': 2} 1 ['a', 'b']", plain.stdout)
        for variables in ({}, {"ITC_TRACE_PURE": "1"}):
            traced = run_traced(program, **variables)
            self.assertEqual((traced.returncode, sorted(traced.stdout)), (plain.returncode, sorted(plain.stdout)), traced.stderr)
            self.assertEqual(_without_own_lines(traced.stderr), plain.stderr)

    def test_a_picture_that_cannot_be_drawn_is_told_in_one_line(self) -> None:
        with tempfile.TemporaryDirectory() as folder:
            command = Path(folder, "picture")
            command.write_text("#!/bin/sh\necho Traceback >&2\necho 'OSError: no space' >&2\nexit 1\n")
            command.chmod(0o755)
            program = self.program(PROGRAM.replace("DOES", ""))
            ended = run_traced("--picture", str(Path(folder, "page")), program, ITC_PICTURE=str(command))
        self.assertEqual(ended.returncode, RACE)
        self.assertIn("itc_trace: no picture: OSError: no space\n", ended.stderr)
        self.assertNotIn("Traceback", ended.stderr)


class Silence(unittest.TestCase):
    def test_a_collector_that_does_not_answer_is_not_waited_for_without_end(self) -> None:
        row = '{"event":%d,"task":"%s","thing":"x","kind":"write","file":"a.py","line":1,"label":""}\n'
        journal = [row % one for one in ((1, "a"), (2, "b"))]
        with socket.create_server(("127.0.0.1", 0)) as door, mock.patch("itc_trace.analyse.races.LONGEST_ANSWER", 0.1):
            found = races_seen("trace", door.getsockname()[1], [*journal, end_row(2)])
        self.assertEqual(found.verdict(), Verdict.INCOMPLETE)
        self.assertIn("timed out", found.unseen[0].text)


def _without_own_lines(text: str) -> str:
    return "".join(line for line in text.splitlines(keepends=True) if not line.startswith("itc_trace: "))


if __name__ == "__main__":
    unittest.main()
