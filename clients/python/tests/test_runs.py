"""Several runs of one program, whose schedule is shaken by a seed."""

from __future__ import annotations

import re
import subprocess
import sys
import tempfile
import unittest
from pathlib import Path

from itc_trace import Verdict
from itc_trace.record.collector import find_program

from .support import ProgramCase, run_python, run_traced

LUCKY = """
import threading, itc_trace
lock = threading.Lock()
def first():
    itc_trace.touch("stock", write=True)
    with lock:
        pass
def second():
    with lock:
        pass
    itc_trace.touch("stock", write=True)
threads = [threading.Thread(target=work) for work in (first, second)]
for thread in threads:
    thread.start()
for thread in threads:
    thread.join()
"""
SURELY_LUCKY = f"""
import os
end, beginning = os.pipe()
{LUCKY}
""".replace("def second():\n", "def second():\n    os.read(end, 1)\n").replace("        pass\n", "        pass\n    os.write(beginning, b'1')\n", 1)
CLEAN = """
import threading, queue, itc_trace
lock, items, done = threading.Lock(), queue.Queue(), threading.Event()
def work():
    for _ in range(20):
        with lock:
            itc_trace.touch("stock", write=True)
        items.put(1)
        items.get()
    done.set()
threads = [threading.Thread(target=work) for _ in range(3)]
for thread in threads:
    thread.start()
done.wait()
for thread in threads:
    thread.join()
print("done")
"""
HELD = """
import _thread, queue, sys, threading
from concurrent.futures import ThreadPoolExecutor
import itc_trace
from itc_trace.sync.shaking import Shaking

KINDS = (vars(_thread)["RLock"],)
held, paused, looked_at = [], set(), set()

def locks():
    for name, module in list(sys.modules.items()):
        if name.startswith("itc_trace"):
            yield from vars(module).items()
    if traced._tracer is not None:
        yield from vars(traced._tracer).items()

def pause(self):
    paused.add(sys._getframe(1).f_locals["original"].__name__ if "original" in sys._getframe(1).f_locals else "touch")
    for name, lock in locks():
        if type(lock) in KINDS:
            looked_at.add(name)
            if lock._is_owned():
                held.append(name)

Shaking.pause = pause
traced = itc_trace.Tracing(shaking=Shaking(1))
with traced:
    lock, items, event, permits = threading.Lock(), queue.Queue(), threading.Event(), threading.Semaphore(2)
    def work(number):
        with lock, permits:
            itc_trace.touch("stock", write=True)
        items.put(number)
        items.get()
        items.task_done()
        event.set()
        event.wait()
    with ThreadPoolExecutor(2) as pool:
        for done in [pool.submit(work, number) for number in range(8)]:
            done.result()
    threads = [threading.Thread(target=work, args=(number,)) for number in range(3)]
    for thread in threads: thread.start()
    for thread in threads: thread.join()
    items.join()
print(*sorted(paused), "looked at" if "_guard" in looked_at else "no lock", held)
"""
EACH_RUN_FAILS = "import sys; print('run', flush=True); sys.exit(7)"
ENDED_ONCE = """
import os, sys
with open(sys.argv[1], "a+") as runs:
    runs.write("x")
    if runs.tell() == 2:
        runs.close()
        os.abort()
"""
SWITCHING = "import sys; print(sys.getswitchinterval())"
RANDOM = "import random; random.seed(1); print(random.random())"
RUNS, MOST_TRIES = 10, 12
"""How many runs a command makes, and how many commands are tried. On a busy machine one run in ten finds the race."""
SHAKEN = re.compile(r"^itc_trace: run (\d+) of (\d+)(?: \(--shake=(\d+)\))?: (.*)$", re.MULTILINE)


class Runs(ProgramCase):
    def test_shaken_runs_find_a_race_that_a_lock_hides(self) -> None:
        program = self.program(LUCKY)
        for _ in range(MOST_TRIES):
            ran = run_traced("--runs", str(RUNS), program)
            if ran.returncode == Verdict.RACES:
                break
        self.assertEqual(ran.returncode, Verdict.RACES, ran.stderr)
        self.assertRegex(ran.stderr, rf"\n    in \d+ of {RUNS} runs, first in run \d+")
        self.assertRegex(ran.stderr, rf"itc_trace: 1 race in {RUNS} runs\n\Z")

    def test_all_runs_but_the_first_are_shaken_by_a_seed_of_their_own(self) -> None:
        ran = run_traced("--runs", "3", self.program(CLEAN))
        self.assertEqual((ran.returncode, ran.stdout), (0, "done\n" * 3), ran.stderr)
        (first, _, unshaken, said), *others = SHAKEN.findall(ran.stderr)
        self.assertEqual((first, unshaken, said), ("1", "", "no race in this run"))
        self.assertEqual(len({seed for _, _, seed, _ in others if seed}), 2)
        self.assertTrue(ran.stderr.endswith("itc_trace: no race in 3 runs\n"), ran.stderr)

    def test_a_seed_that_is_given_is_the_one_that_is_told(self) -> None:
        ran = run_traced("--runs", "3", "--shake=41", self.program(CLEAN))
        self.assertEqual([seed for _, _, seed, _ in SHAKEN.findall(ran.stderr)], ["41", "42", "43"])

    def test_a_run_that_is_shaken_takes_shorter_turns(self) -> None:
        program = self.program(SWITCHING)
        usual, shaken, again, other = (
            run_traced("--quiet", *words, program).stdout for words in ([], ["--shake=5"], ["--shake=5"], ["--shake=6"])
        )
        self.assertEqual(float(usual), sys.getswitchinterval())
        self.assertLess(float(shaken), float(usual) / 10)
        self.assertEqual(shaken, again)
        self.assertNotEqual(shaken, other)

    def test_no_run_is_shaken_if_none_is_to(self) -> None:
        ran = run_traced("--quiet", "--runs", "2", "--no-shake", self.program(SWITCHING))
        self.assertEqual(ran.stdout, f"{sys.getswitchinterval()}\n" * 2)

    def test_no_pause_stands_under_a_lock_of_the_package(self) -> None:
        ran = run_python("-c", HELD)
        paused = "__enter__ __exit__ acquire get join put result run set start submit task_done touch wait"
        self.assertEqual(ran.stdout, f"{paused} looked at []\n", ran.stderr)

    def test_a_program_s_own_random_numbers_stay(self) -> None:
        program = self.program(RANDOM)
        self.assertEqual(run_traced("--quiet", "--shake", program).stdout, run_traced("--quiet", program).stdout)

    def test_a_quiet_run_says_nothing_where_there_is_no_race(self) -> None:
        self.assertEqual(run_traced("--quiet", "--runs", "2", self.program(CLEAN)).stderr, "")

    def test_the_program_s_own_status_stays(self) -> None:
        ran = run_traced("--runs", "2", self.program(EACH_RUN_FAILS))
        self.assertEqual((ran.returncode, ran.stdout), (7, "run\nrun\n"), ran.stderr)

    def test_one_run_that_was_not_seen_whole_is_enough(self) -> None:
        with tempfile.TemporaryDirectory() as folder:
            ran = run_traced("--runs", "3", self.program(ENDED_ONCE), str(Path(folder, "runs")))
        self.assertEqual(ran.returncode, Verdict.INCOMPLETE, ran.stderr)
        self.assertIn("itc_trace: incomplete: run 2: the program was ended by SIGABRT\n", ran.stderr)

    def test_each_run_keeps_its_own_trace(self) -> None:
        with tempfile.TemporaryDirectory() as folder:
            export = str(Path(folder, "trace"))
            run_traced("--quiet", "--runs", "2", "--export", export, self.program(CLEAN))
            for number in (1, 2):
                with open(f"{export}.{number}", "rb") as given:
                    said = subprocess.run([find_program(), "check"], stdin=given, capture_output=True, text=True, check=False)
                self.assertRegex(said.stdout, r"^yes \d+\n$")
                self.assertTrue(Path(f"{export}.{number}.journal").exists())

    def test_a_possible_race_fails_only_if_it_is_to(self) -> None:
        program = self.program(SURELY_LUCKY)
        for words, status in (([], 0), (["--fail-on", "race"], 0), (["--fail-on", "possible"], 66), (["--fail-on=possible"], 66)):
            with self.subTest(words=words):
                ran = run_traced(*words, program)
                self.assertEqual(ran.returncode, status, ran.stderr)
                self.assertIn("itc_trace: possible race on stock", ran.stderr)
                self.assertIn("itc_trace: no race in this run; 1 possible: ", ran.stderr)

    def test_a_quiet_run_still_tells_what_is_possible(self) -> None:
        ran = run_traced("--quiet", self.program(SURELY_LUCKY))
        self.assertEqual(ran.returncode, 0)
        self.assertIn("itc_trace: possible race on stock", ran.stderr)


if __name__ == "__main__":
    unittest.main()
