"""What a program sees of the package from inside, and which options and libraries it may run with."""

from __future__ import annotations

import os
import re
import sys
import tempfile
import unittest
from pathlib import Path

from itc_trace import Verdict

from .support import ProgramCase, needs, python_with, run_python, run_traced

SHOWN = """
import _thread, asyncio, atexit, concurrent.futures, copy, heapq, inspect, os, pickle, queue, re, signal, sys, threading

lock, rlock = threading.Lock(), threading.RLock()

class Holder:
    make, close, leave = threading.Lock, os.close, os._exit

for text in open(sys.argv[1]).read().splitlines():
    try:
        told = repr(eval(text))
    except BaseException as error:
        told = f"{type(error).__name__}: {error}"
    print(text, "=>", re.sub("0x[0-9a-f]+|owner=[0-9]+", "", told))
"""
LOOKED_AT = """\
type(lock), type(rlock)
type(lock) is _thread.LockType, type(lock) is type(_thread.allocate_lock())
type(rlock) is _thread.RLock, type(rlock) is threading._CRLock
lock.__class__ is type(lock), rlock.__class__ is type(rlock)
isinstance(lock, _thread.LockType), isinstance(lock, type(threading.Lock())), isinstance(3, type(lock)), isinstance(rlock, type(lock))
issubclass(type(lock), _thread.LockType), _thread.LockType
isinstance(lock, threading.RLock)
threading.Lock.__name__, threading.Lock.__module__, threading.Lock.__doc__[:20]
threading.RLock.__name__, threading.RLock.__module__, threading.RLock.__doc__[:20]
_thread.allocate_lock is threading.Lock, _thread.allocate is _thread.allocate_lock
type(lock).__name__, type(lock).__qualname__, type(lock).__module__, type(rlock).__name__, type(rlock).__module__
type(lock).__mro__
lock, rlock, str(lock)
lock.acquire(), lock, lock.locked(), lock.acquire(False), lock.acquire(timeout=0.01)
lock.acquire(1, -2)
lock.acquire(False, 1)
lock.release(), lock
lock.release()
rlock.release()
rlock.acquire(), rlock, rlock._is_owned(), rlock._release_save() and None, rlock._recursion_count()
hasattr(rlock, "_owner"), hasattr(lock, "_owner"), hasattr(lock, "__dict__"), hasattr(rlock, "__dict__")
vars(lock)
vars(rlock)
pickle.dumps(lock)
pickle.dumps(rlock)
copy.copy(lock)
copy.deepcopy(rlock)
pickle.loads(pickle.dumps(threading.Lock)) is threading.Lock
pickle.loads(pickle.dumps(os.close)) is os.close, pickle.loads(pickle.dumps(os.fork)) is os.fork
Holder().make(), type(Holder().make())
Holder().close(-1)
Holder().leave("no status")
type(lock)()
inspect.getsourcefile(threading.Thread.start), inspect.getsourcefile(queue.Queue.put), inspect.getsourcefile(asyncio.create_task)
inspect.getsourcefile(threading.Condition.wait), inspect.getsourcefile(concurrent.futures.ThreadPoolExecutor.submit)
inspect.getsource(threading.Thread.start)[:20], inspect.getmodule(threading.Thread.start)
threading.Thread.start.__code__.co_filename, threading.Thread.start.__code__.co_name, threading.Thread.start.__code__.co_firstlineno
inspect.signature(threading.Thread), inspect.signature(queue.Queue.put), inspect.signature(asyncio.create_task), inspect.signature(os.close)
inspect.isbuiltin(threading.Lock), inspect.isbuiltin(os.close), inspect.isfunction(threading.RLock), inspect.isclass(threading.Lock)
threading.Lock, os.close, os.execv, os.fork, os._exit, atexit.register, _thread.start_new_thread, __import__
threading.Thread.join()
threading.Thread(target=print).start(3)
threading.Event().set(3)
queue.Queue().put()
concurrent.futures.Future().set_result()
concurrent.futures.Future().set_exception()
concurrent.futures.Future().set_result(result=3), concurrent.futures.Future().set_exception(exception=ValueError())
heapq.heappush(3, 4)
os.close("x"), os.close(-1)
signal.getsignal(signal.SIGTERM), signal.signal(signal.SIGTERM, signal.SIG_IGN), signal.signal(signal.SIGTERM, signal.SIG_DFL)
sys.gettrace(), sys.getprofile(), threading.gettrace(), sys.argv[2:], sys.flags, sys.warnoptions, sys._xoptions
threading.active_count(), len(sys._current_frames()) < 4, sys.getrecursionlimit(), sys.getswitchinterval()
"""
ENDS = """
import os, signal, sys, time
print(signal.getsignal(signal.SIGTERM), signal.signal(signal.SIGTERM, signal.SIG_DFL), flush=True)
import _thread; _thread.interrupt_main(signal.SIGTERM); print("goes on", flush=True)
os.kill(os.getpid(), signal.SIGTERM)
time.sleep(60)
"""
RAISING = """
import threading, traceback, queue
thread = threading.Thread(target=print)
for fail in (thread.join, lambda: queue.Queue().get(False), lambda: threading.Thread(3)):
    try:
        fail()
    except Exception:
        traceback.print_exc()
"""
FORKING = """
import multiprocessing, os, pty, subprocess, threading, warnings
def show(message, category, file, line, *_):
    print(category.__name__, os.path.basename(file), line, str(message).replace(str(os.getpid()), "N"), flush=True)
warnings.showwarning = show
warnings.simplefilter("always")
def fork():
    number = os.fork()
    if not number:
        os._exit(0)
    os.waitpid(number, 0)
def fork_all():
    fork()
    number, terminal = pty.fork()
    if not number:
        os._exit(0)
    os.waitpid(number, 0)
    os.close(terminal)
    subprocess.run(["true"], preexec_fn=os.getpid)
    process = multiprocessing.get_context("fork").Process(target=int)
    process.start()
    process.join()
fork_all()
print("several threads", flush=True)
done = threading.Event()
thread = threading.Thread(target=done.wait)
thread.start()
fork_all()
warnings.simplefilter("error")
fork()
warnings.simplefilter("default")
for _ in range(2):
    fork()
done.set()
thread.join()
print(len(warnings.filters))
fork()
"""
"""Python warns of a fork beside threads since 3.12."""
OPTIONS = (
    ("-X", "warn_default_encoding", "-W", "error"), ("-X", "no_debug_ranges"), ("-X", "int_max_str_digits=700"), ("-X", "own=a=b"),
    ("-X", "dev", "-X", "frozen_modules=off"), ("-W", "ignore::DeprecationWarning:own", "-b"), ("-O", "-X", "utf8=1", "-P"),
    ("--check-hash-based-pycs", "always"), ("-X", "tracemalloc=3", "-X", "importtime"),
)
TELLS_OPTIONS = "import _imp, sys\nprint(sys._xoptions, sys.warnoptions, sys.flags, _imp.check_hash_based_pycs)\n"
STRICT = """
import asyncio, multiprocessing, subprocess, sys, threading, warnings
warnings.simplefilter("error")
def sell(): pass
def put(items): items.put(3)
async def main(): await asyncio.gather(asyncio.sleep(0), asyncio.to_thread(sell))
if __name__ == "__main__":
    asyncio.run(main())
    for how in ("fork", "spawn"):
        context = multiprocessing.get_context(how)
        items = context.Queue()
        process = context.Process(target=put, args=(items,))
        process.start()
        print(items.get())
        process.join()
    print(subprocess.run([sys.executable, "-c", "print(4)"], capture_output=True, encoding="utf-8").stdout)
"""
GREENLETS = """
import threading
early = threading.RLock()
early.acquire()
from gevent import monkey; monkey.patch_all()
early.release()
import concurrent.futures, os, queue, socket, subprocess, time
import gevent
from gevent.pool import Pool
from gevent.threadpool import ThreadPool
stock, lock, rlock, changed = {"left": 9}, threading.Lock(), threading.RLock(), threading.Condition()
def sell():
    with lock, rlock:
        left = stock["left"]
        gevent.sleep(0.001)
        stock["left"] = left - 1
def wait():
    with changed:
        while stock["left"]:
            changed.wait()
    print("woke")
waiting = threading.Thread(target=wait)
waiting.start()
threads = [threading.Thread(target=sell) for _ in range(3)]
for thread in threads: thread.start()
for thread in threads: thread.join()
gevent.joinall([gevent.spawn(sell) for _ in range(6)])
with changed: changed.notify_all()
waiting.join()
items = queue.Queue()
threading.Timer(0.01, items.put, (3,)).start()
print(items.get(), stock, type(lock), type(rlock), threading.active_count())
with concurrent.futures.ThreadPoolExecutor(2) as pool: print(list(pool.map(abs, (-1, 2))))
print(Pool(3).map(abs, [-3, 4]), ThreadPool(2).map(abs, [-3, 5]))
print(subprocess.run(["echo", "five"], capture_output=True).stdout)
child = os.fork()
if child == 0: os._exit(3)
print(os.waitstatus_to_exitcode(os.waitpid(child, 0)[1]))
"""


class Seen(ProgramCase):
    maxDiff = None

    def test_a_fork_warns_of_the_program_s_threads_alone(self) -> None:
        program = self.program(FORKING)
        plain, traced = run_python(program), run_traced("--watch-nothing", program)
        self.assertEqual(traced.stdout, plain.stdout, traced.stderr)
        self.assertEqual("multi-threaded" in plain.stdout, sys.version_info >= (3, 12), plain.stdout)

    def test_what_a_program_looks_at_is_as_untraced(self) -> None:
        with tempfile.TemporaryDirectory() as folder:
            looked_at = str(Path(folder, "looked_at"))
            Path(looked_at).write_text(LOOKED_AT)
            program = self.program(SHOWN)
            plain = run_python(program, looked_at)
            for words in ((), ("--watch-nothing",)):
                traced = run_traced("--quiet", *words, program, looked_at)
                self.assertEqual(traced.stdout.splitlines(), plain.stdout.splitlines(), traced.stderr)
        self.assertEqual(len(plain.stdout.splitlines()), len(LOOKED_AT.splitlines()), plain.stderr)

    def test_a_signal_has_its_own_effect_after_the_program_asks_for_it(self) -> None:
        program = self.program(ENDS)
        plain, traced = run_python(program), run_traced(program)
        self.assertEqual(traced.stdout, plain.stdout)
        self.assertIn("itc_trace: incomplete: the program was ended by SIGTERM", traced.stderr)

    def test_a_traceback_leads_to_no_file_of_the_package(self) -> None:
        program = self.program(RAISING)
        plain, traced = run_python(program), run_traced("--quiet", program)
        self.assertNotIn("itc_trace", traced.stderr)
        for line in plain.stderr.splitlines():
            self.assertIn(line, traced.stderr)


class Options(ProgramCase):
    def test_each_option_of_the_interpreter_is_the_programs(self) -> None:
        program = self.program(TELLS_OPTIONS)
        for words in OPTIONS:
            with self.subTest(words=words):
                plain = run_python(*words, program)
                traced = run_python(*words, "-m", "itc_trace", "run", program)
                self.assertEqual((traced.returncode, traced.stdout), (0, plain.stdout), traced.stderr)

    def test_a_program_for_which_warnings_are_errors_runs(self) -> None:
        program = self.program(STRICT)
        with tempfile.TemporaryDirectory() as folder:
            kept = "--export", os.path.join(folder, "export"), "--picture", os.path.join(folder, "picture.html")
            ran = run_python("-X", "warn_default_encoding", "-W", "error", "-m", "itc_trace", "run", *kept, program)
        self.assertEqual((ran.returncode, re.sub(r"\s+", " ", ran.stdout)), (0, "3 3 4 "), ran.stderr)
        self.assertNotIn("Warning", ran.stderr)


class Greenlets(ProgramCase):
    @needs("python3-gevent", "gevent")
    def test_tasks_in_the_place_of_threads_run_as_ever_and_are_followed(self) -> None:
        python, program = python_with("gevent"), self.program(GREENLETS)
        plain = run_python(program, python=python)
        for words in ((), ("--watch-nothing",)):
            ran = run_traced(*words, program, python=python)
            self.assertEqual(ran.stdout, plain.stdout, ran.stderr)
            self.assertEqual(ran.returncode, Verdict.NO_RACE, ran.stderr)
            self.assertNotIn("not looked into", ran.stderr)
            self.assertNotIn("race on", ran.stderr)


if __name__ == "__main__":
    unittest.main()
