"""Signals that end a run: what was seen by then is listed and kept, and nothing that was cut short is an all-clear."""

from __future__ import annotations

import os
import signal
import subprocess
import sys
import tempfile
import time
import unittest
from pathlib import Path
from typing import Any, cast
from unittest import mock

from itc_trace import Verdict
from itc_trace.cli import deferred_signals
from itc_trace.record.collector import find_program

from .same import FORMS
from .support import PACKAGE, PATIENT, WAIT, ProgramCase, run_python, run_traced, wait_until

SELLING = """
import sys, threading, time, itc_trace
lock = threading.Lock()
def sell():
    if "clean" in sys.argv:
        with lock:
            itc_trace.touch("stock", write=True)
    else:
        itc_trace.touch("stock", write=True)
threads = [threading.Thread(target=sell) for _ in range(2)]
for thread in threads:
    thread.start()
for thread in threads:
    thread.join()
print("sold", flush=True)
"""
WAITING = SELLING + "time.sleep(1000)\n"
BUSY = SELLING + "while True: pass\n"
IN_A_JOIN = SELLING + "threading.Thread(target=time.sleep, args=(1000,)).start()\n"
DEAF = SELLING + "import os, signal; signal.signal(signal.SIGTERM, signal.SIG_IGN)\nprint(os.getpid(), flush=True)\ntime.sleep(1000)\n"
SLOW = SELLING + """
import signal
def end(*_):
    time.sleep(12)
    sys.exit(3)
signal.signal(signal.SIGTERM, end)
print("ready", flush=True)
time.sleep(1000)
"""
POLITE = SELLING + """
import signal
signal.signal(signal.SIGTERM, lambda *_: sys.exit(0))
print("ready", flush=True)
time.sleep(1000)
"""
COUNTING = """
import os, signal, sys, time
came = []
def count(*_):
    came.append(1)
    print("came", flush=True)
signal.signal(signal.SIGTERM, count)
signal.signal(signal.SIGUSR1, lambda *_: sys.exit(len(came)))
print("ready", os.getpid(), sep="\\n", flush=True)
while True:
    time.sleep(0.01)
"""
TAKEN_BY_ANOTHER = SELLING + """
import os, signal, socket
def take():
    time.sleep(0.5)
    signal.pthread_kill(threading.get_ident(), int(sys.argv[1]))
threading.Thread(target=take, daemon=True).start()
server = socket.create_server(("127.0.0.1", 0))
server.settimeout(100)
server.accept()
"""
WITHIN_C = SELLING + """
import hashlib
print("computes", flush=True)
hashlib.pbkdf2_hmac("sha256", b"word", b"salt", 300_000_000)
"""
ITS_OWN_FIRST = SELLING + """
import os, signal
def end(number, _):
    signal.signal(number, signal.SIG_DFL)
    time.sleep(2)
    print("cleaned up", flush=True)
    sys.exit(4)
signal.signal(signal.SIGTERM, end)
os.kill(os.getpid(), signal.SIGTERM)
time.sleep(1000)
"""
FOR_A_WHILE = SELLING + "time.sleep(90)\n"
TAKEN_BESIDE_THE_WAIT = """
import signal, subprocess, sys, threading, time
from itc_trace.cli import commands
waiting = threading.Event()
wait = subprocess.Popen.wait
def waits(self, timeout=None):
    waiting.set()
    return wait(self, timeout)
subprocess.Popen.wait = waits
def take():
    waiting.wait()
    time.sleep(3)
    signal.pthread_kill(threading.get_ident(), signal.SIGTERM)
threading.Thread(target=take, daemon=True).start()
sys.exit(commands.main())
"""
PENDING = "ShdPnd:\t0000000000000000"
"""The line of a process's status that has the signals which have not come to it yet."""


ALARMS = """
import signal, sys, time
table, items, late, further = {}, [1], [], 0

def follow(frame, event, argument):
    return follow

def busy(is_over):
    while not is_over():
        table[len(table) % 1000] = [1]; items.append(table.get(3)); items[0] = len(items) % 7

sys.setswitchinterval(1e-5)
signal.signal(signal.SIGVTALRM, lambda number, frame: late.append(number))
for turn in range(200):
    signal.setitimer(signal.ITIMER_VIRTUAL, 0.003)
    sys.settrace(follow)
    busy(lambda: len(late) > turn + further)
    until = time.process_time() + 0.01
    busy(lambda: time.process_time() > until)
    sys.settrace(None)
    further = len(late) - turn - 1
    items[1:] = []
print(len(late))
"""


def sent_again(handler: deferred_signals.Deferred, number: int) -> deferred_signals.LastSent:
    """Sends a signal again, and gives what the handler is told by the interpreter then."""
    deferred_signals._send_to(0, number, handler._sent)
    call: Any = deferred_signals.Deferred.__call__
    return cast(deferred_signals.LastSent, call.__defaults__[0])


class Started:
    """A run that is started, and read from."""

    def __init__(self, *words: str, command: str = PATIENT) -> None:
        environment = {**os.environ, "PYTHONPATH": str(PACKAGE)}
        self.process = subprocess.Popen(
            [sys.executable, "-c", command, "run", *words], stdout=subprocess.PIPE, stderr=subprocess.PIPE, text=True,
            env=environment, start_new_session=True,
        )

    def wait_for(self, line: str) -> None:
        assert self.process.stdout is not None
        for told in self.process.stdout:
            if told == f"{line}\n":
                return
        raise AssertionError(f"{line} did not come")

    def end(self, number: int, is_for_all: bool = False) -> tuple[int, str]:
        if is_for_all:
            os.killpg(self.process.pid, number)
        else:
            os.kill(self.process.pid, number)
        _, errors = self.process.communicate(timeout=900)
        return self.process.returncode, errors


class Signals(ProgramCase):
    def ended(self, text: str, number: int, *words: str, is_for_all: bool = False) -> tuple[int, str]:
        run = Started(*words, self.program(text), *(["clean"] if "clean" in words else []))
        run.wait_for("sold")
        return run.end(number, is_for_all)

    def test_a_run_that_is_ended_lists_the_races_that_were_seen(self) -> None:
        for text in (WAITING, BUSY, IN_A_JOIN):
            for number in (signal.SIGTERM, signal.SIGHUP):
                for is_for_all in (False, True):
                    with self.subTest(text=text[-40:], number=number, is_for_all=is_for_all):
                        status, errors = self.ended(text, number, is_for_all=is_for_all)
                        self.assertEqual(status, Verdict.RACES, errors)
                        first, second, *_ = errors.splitlines()
                        self.assertEqual(first, f"itc_trace: incomplete: the program was ended by {number.name}")
                        self.assertEqual(second, "itc_trace: race on stock", errors)

    def test_a_run_that_is_cut_short_is_no_all_clear(self) -> None:
        program = self.program(WAITING)
        for number in (signal.SIGTERM, signal.SIGHUP):
            run = Started(program, "clean")
            run.wait_for("sold")
            status, errors = run.end(number)
            self.assertEqual(status, Verdict.INCOMPLETE, errors)
            self.assertIn("itc_trace: no race in what was seen: 1 place of 1 thing", errors)

    def test_a_run_that_is_ended_keeps_its_trace(self) -> None:
        with tempfile.TemporaryDirectory() as folder:
            export = str(Path(folder, "trace"))
            self.ended(WAITING, signal.SIGTERM, "--export", export)
            with open(export, "rb") as given:
                checked = subprocess.run([find_program(), "check"], stdin=given, capture_output=True, text=True, check=False)
            self.assertRegex(checked.stdout, r"^yes \d+\n$")

    def test_nothing_that_was_noted_before_a_signal_is_lost(self) -> None:
        """Also where many notes wait to be reported."""
        text = SELLING.replace('print("sold", flush=True)', """
for number in range(4000):
    with lock: itc_trace.touch(f"part {number}")
import os, signal
os.kill(os.getpid(), signal.SIGTERM)
time.sleep(1000)
""")
        ran = run_traced(self.program(text))
        self.assertEqual(ran.returncode, Verdict.RACES, ran.stderr)
        self.assertIn("in what was seen: 4001 places of 4001 things", ran.stderr)

    def test_a_program_that_takes_its_time_to_end_has_it(self) -> None:
        run = Started(self.program(SLOW), "clean")
        run.wait_for("ready")
        status, errors = run.end(signal.SIGTERM)
        self.assertEqual(status, 3, errors)
        self.assertNotIn("incomplete", errors)

    def counted(self, run: Started, program: int) -> int:
        """How often a signal came to the program, once the run has looked at it."""
        wait_until(lambda: PENDING in Path(f"/proc/{run.process.pid}/status").read_text())
        time.sleep(2)
        os.kill(program, signal.SIGUSR1)
        run.process.communicate(timeout=WAIT)
        return run.process.returncode

    def counting(self) -> tuple[Started, int]:
        run = Started(self.program(COUNTING))
        run.wait_for("ready")
        assert run.process.stdout is not None
        return run, int(run.process.stdout.readline())

    def test_a_signal_to_the_run_alone_comes_to_the_program_once(self) -> None:
        run, program = self.counting()
        run.process.terminate()
        run.wait_for("came")
        self.assertEqual(self.counted(run, program), 1)

    def test_a_signal_to_the_whole_group_comes_to_the_program_once(self) -> None:
        """As supervisors and terminals send it. What hands it on looks at it later than the program, which could not count two at once."""
        run, program = self.counting()
        for _ in range(2):
            run.process.send_signal(signal.SIGSTOP)
            os.killpg(run.process.pid, signal.SIGTERM)
            run.wait_for("came")
            run.process.send_signal(signal.SIGCONT)
            wait_until(lambda: PENDING in Path(f"/proc/{run.process.pid}/status").read_text())
            time.sleep(1)
        self.assertEqual(self.counted(run, program), 2)

    def test_a_program_that_does_not_heed_a_signal_goes_on(self) -> None:
        run = Started(self.program(DEAF))
        run.wait_for("sold")
        assert run.process.stdout is not None
        program = int(run.process.stdout.readline())
        run.process.terminate()
        with self.assertRaises(subprocess.TimeoutExpired):
            run.process.wait(1)
        os.kill(program, signal.SIGKILL)
        _, errors = run.process.communicate(timeout=WAIT)
        self.assertEqual(run.process.returncode, Verdict.RACES, errors)
        self.assertTrue(errors.startswith("itc_trace: incomplete: the program was ended by SIGKILL\n"), errors)

    def test_a_program_that_ends_by_itself_when_it_is_asked_to_was_seen_whole(self) -> None:
        run = Started(self.program(POLITE), "clean")
        run.wait_for("ready")
        status, errors = run.end(signal.SIGTERM)
        self.assertEqual(status, 0, errors)
        self.assertIn("no race in this run: 1 place", errors)

    def test_a_signal_ends_a_program_at_once_whose_main_thread_does_not_see_it(self) -> None:
        """Another thread takes it, as one that comes just before a call of the system does not interrupt that call."""
        for number in (signal.SIGTERM, signal.SIGHUP):
            begun = time.monotonic()
            ran = run_traced(self.program(TAKEN_BY_ANOTHER), str(int(number)))
            self.assertLess(time.monotonic() - begun, 90)
            self.assertEqual(ran.returncode, Verdict.RACES, ran.stderr)
            self.assertTrue(ran.stderr.startswith(f"itc_trace: incomplete: the program was ended by {number.name}\n"), ran.stderr)

    def test_a_signal_ends_a_program_whose_main_thread_is_in_c_for_long(self) -> None:
        run = Started(self.program(WITHIN_C))
        run.wait_for("computes")
        begun = time.monotonic()
        status, errors = run.end(signal.SIGTERM)
        self.assertEqual(status, Verdict.RACES, errors)
        self.assertTrue(errors.startswith("itc_trace: incomplete: the program was ended by SIGTERM\n"), errors)
        self.assertLess(time.monotonic() - begun, 60)

    def test_a_signal_of_a_handler_before_is_not_sent_again(self) -> None:
        ran = run_traced(self.program(ITS_OWN_FIRST), "clean")
        self.assertEqual((ran.returncode, ran.stdout), (4, "sold\ncleaned up\n"), ran.stderr)

    def test_each_alarm_is_one_call_of_its_handler(self) -> None:
        for form, pure in FORMS.items():
            with self.subTest(hooks=form):
                ran = run_traced(self.program(ALARMS), ITC_TRACE_PURE=pure)
                self.assertEqual(ran.stdout, "200\n", ran.stderr)

    def test_a_signal_that_is_sent_again_while_the_last_one_is_looked_at_is_no_further_one(self) -> None:
        called: list[int] = []
        handler, number = deferred_signals.Deferred(lambda number, frame: called.append(number)), signal.SIGUSR1
        handler._waiting.append(number)
        with mock.patch.object(deferred_signals, "_send", mock.Mock()):
            bound = [sent_again(handler, number) for _ in range(2)]
        for last, due in ((bound[1], 1), (bound[0], 1), (bound[1], 2)):
            handler(number, None, last)
            self.assertEqual(len(called), due)

    def test_a_signal_that_comes_just_before_the_run_waits_ends_it(self) -> None:
        begun = time.monotonic()
        ran = run_python("-c", TAKEN_BESIDE_THE_WAIT, "run", self.program(FOR_A_WHILE), "clean")
        self.assertEqual(ran.returncode, Verdict.INCOMPLETE, ran.stderr)
        self.assertIn("incomplete: the program was ended by SIGTERM", ran.stderr)
        self.assertLess(time.monotonic() - begun, 60)

    def test_a_program_that_is_killed_is_no_all_clear(self) -> None:
        for name in ("SIGKILL", "SIGABRT", "SIGSEGV"):
            ran = run_traced(self.program(f"import os, signal; os.kill(os.getpid(), signal.{name})"))
            self.assertEqual(ran.returncode, Verdict.INCOMPLETE, ran.stderr)
            self.assertTrue(ran.stderr.startswith(f"itc_trace: incomplete: the program was ended by {name}\n"), ran.stderr)

    def test_an_interrupt_is_the_program_s_and_no_all_clear(self) -> None:
        run = Started(self.program(WAITING), "clean")
        run.wait_for("sold")
        status, errors = run.end(signal.SIGINT, is_for_all=True)
        self.assertEqual(status, Verdict.INCOMPLETE, errors)
        self.assertIn("KeyboardInterrupt\nitc_trace: incomplete: the program was ended by SIGINT\n", errors)


if __name__ == "__main__":
    unittest.main()
