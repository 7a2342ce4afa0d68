"""Small programs: races that a lock, a condition, a permit or a poll hides, and the same touches in order.

A program has a form, which is how its two tasks go on, and a touch of each task. `TOUCH` stands for it in the form.
`python3 -m tests.hidden_races` runs all of them by `run --confirm`, and prints how many are confirmed.
"""

from __future__ import annotations

import argparse
import os
import re
import sys
import tempfile
from collections.abc import Iterator
from concurrent.futures import ThreadPoolExecutor
from pathlib import Path
from typing import NamedTuple

from .support import run_traced

EACH = 4
"""So many programs there are of each form."""


class Touch(NamedTuple):
    """What both tasks touch: how it is made, and the statement of each."""

    made: str
    first: str
    second: str


STOCK = "class Stock:\n    count = 0\nstock = Stock()\nstock.left = 5"
TOUCHES = {
    "field": Touch(STOCK, "stock.left -= 1", "seen = stock.left"),
    "element": Touch("table = {'left': 5}", "table['left'] = 4", "seen = table['left']"),
    "variable": Touch("total = 5", "total -= 1", "seen = total"),
    "length": Touch("items = []", "items.append(1)", "seen = len(items)"),
    "set": Touch("names = set()", "names.add('a')", "seen = sorted(names)"),
    "keys": Touch("table = {1: 2}", "table.update({3: 4})", "seen = [one for one in table]"),
    "class": Touch(STOCK, "Stock.count += 1", "seen = Stock.count"),
    "deque": Touch("jobs = collections.deque('abcde')", "jobs.popleft()", "seen = list(jobs)"),
    "overwritten": Touch(STOCK, "stock.left = 1", "stock.left = 2"),
    "both_count": Touch(STOCK, "stock.left -= 1", "stock.left -= 1"),
}

BEGIN = """\
import collections, threading, time
from concurrent.futures import ThreadPoolExecutor
total = 0
"""
THREADS = """
if __name__ == "__main__":
    threads = [threading.Thread(target=work) for work in (first, second)]
    for thread in threads:
        thread.start()
    for thread in threads:
        thread.join()
"""
SECOND_IN_MAIN = """
if __name__ == "__main__":
    worker = threading.Thread(target=first)
    worker.start()
    second()
    worker.join()
"""
IN_A_POOL = """
if __name__ == "__main__":
    with ThreadPoolExecutor(2) as pool:
        for job in [pool.submit(work) for work in (first, second)]:
            job.result()
"""
OWN_QUEUE = """
waiting, ready = [], threading.Condition()
def put(one):
    with ready:
        waiting.append(one)
        ready.notify()
def get():
    with ready:
        while not waiting:
            ready.wait()
        return waiting.pop(0)
"""
LOCK = "guard = threading.Lock()"
PASSED = "def first():\n    TOUCH\n    with guard:\n        pass\n"
PASSED_LATER = "def second():\n    time.sleep(0.05)\n    with guard:\n        pass\n    TOUCH\n"

HIDDEN = {
    "lock": f"{LOCK}\n{PASSED}{PASSED_LATER}{THREADS}",
    "recursive_lock": """
guard = threading.RLock()
def step():
    guard.acquire()
    guard.acquire()
    guard.release()
    guard.release()
def first():
    TOUCH
    step()
def second():
    time.sleep(0.05)
    step()
    TOUCH
""" + THREADS,
    "first_holds": f"{LOCK}\ndef first():\n    with guard:\n        TOUCH\n{PASSED_LATER}{THREADS}",
    "second_holds": f"{LOCK}\n{PASSED}def second():\n    time.sleep(0.05)\n    with guard:\n        TOUCH\n{THREADS}",
    "log": """
class Log:
    def __init__(self):
        self.guard, self.lines = threading.Lock(), []
    def tell(self, line):
        with self.guard:
            self.lines.append(line)
log = Log()
def first():
    TOUCH
    log.tell("first")
def second():
    time.sleep(0.05)
    log.tell("second")
    TOUCH
""" + THREADS,
    "own_queue": OWN_QUEUE + """
def first():
    for number in range(3):
        put(number)
        TOUCH
    put(3)
def second():
    time.sleep(0.05)
    for _ in range(4):
        get()
        TOUCH
""" + THREADS,
    "lock_of_condition": """
guard = threading.Condition()
def wait():
    with guard:
        guard.wait(0.01)
""" + PASSED + PASSED_LATER + THREADS,
    "permits": """
permits = threading.Semaphore(2)
def first():
    TOUCH
    for _ in range(2):
        with permits:
            pass
def second():
    time.sleep(0.05)
    with permits:
        pass
    TOUCH
""" + THREADS,
    "poll": """
def first():
    TOUCH
def second():
    time.sleep(0.05)
    told = "at work" if worker.is_alive() else "over"
    TOUCH
""" + SECOND_IN_MAIN,
    "pool": f"{LOCK}\n{PASSED}{PASSED_LATER}{IN_A_POOL}",
}
"""Another order of the two tasks would have the touches meet."""

CLEAN = {
    "flag": LOCK + """
done = []
def first():
    TOUCH
    with guard:
        done.append(True)
def second():
    while True:
        with guard:
            if done:
                break
        time.sleep(0.001)
    TOUCH
""" + THREADS,
    "condition": """
done, ready = [], threading.Condition()
def first():
    TOUCH
    with ready:
        done.append(True)
        ready.notify()
def second():
    time.sleep(0.05)
    with ready:
        ready.wait_for(lambda: done)
    TOUCH
""" + THREADS,
    "own_queue": OWN_QUEUE + """
def first():
    TOUCH
    put(1)
def second():
    time.sleep(0.05)
    get()
    TOUCH
""" + THREADS,
    "polled_to_the_end": """
def first():
    TOUCH
def second():
    while worker.is_alive():
        time.sleep(0.001)
    TOUCH
""" + SECOND_IN_MAIN,
    "signal_by_lock": """
gate = threading.Lock()
gate.acquire()
def first():
    TOUCH
    gate.release()
def second():
    gate.acquire()
    TOUCH
""" + THREADS,
    "signal_by_permit": """
gate = threading.Semaphore(0)
def first():
    TOUCH
    gate.release()
def second():
    time.sleep(0.05)
    gate.acquire()
    TOUCH
""" + THREADS,
    "latch": LOCK + """
left, opened = [1, 2], threading.Event()
def arrive():
    with guard:
        left.pop()
        if not left:
            opened.set()
def first():
    TOUCH
    arrive()
def second():
    arrive()
    opened.wait()
    TOUCH
""" + THREADS,
    "common_lock": LOCK + """
def first():
    with guard:
        TOUCH
def second():
    time.sleep(0.05)
    with guard:
        TOUCH
""" + THREADS,
    "two_locks": LOCK + """
inner = threading.RLock()
def first():
    with guard, inner:
        TOUCH
def second():
    time.sleep(0.05)
    with inner:
        pass
    with guard:
        TOUCH
""" + THREADS,
    "turns": """
turn, changed = [0], threading.Condition()
def pass_on(number):
    with changed:
        turn[0] = number
        changed.notify_all()
def first():
    TOUCH
    pass_on(1)
def second():
    with changed:
        while turn[0] != 1:
            changed.wait()
    TOUCH
    pass_on(2)
""" + THREADS,
}
"""No order of the two tasks has the touches meet."""


def program(form: str, touch: Touch) -> str:
    """The text of a program: a form with its touches, that of `first` before that of `second`."""
    first, second = re.split(r"(?=^def second)", form, flags=re.MULTILINE)
    told = first.replace("TOUCH", touch.first) + second.replace("TOUCH", touch.second)
    named = re.sub(r"^(def (?:first|second)\(\):\n)", r"\1    global total\n", told, flags=re.MULTILINE)
    return f"{BEGIN}{touch.made}\n{named}"


def programs(forms: dict[str, str]) -> dict[str, str]:
    """All programs of these forms, by their names. Each form has other touches than the one before."""
    names = list(TOUCHES)
    return {
        f"{form}_{name}": program(text, TOUCHES[name])
        for place, (form, text) in enumerate(forms.items())
        for name in (names[(EACH * place + further) % len(names)] for further in range(EACH))
    }


class Ran(NamedTuple):
    name: str
    status: int
    told: str

    @property
    def is_confirmed(self) -> bool:
        return "itc_trace: confirmed race on" in self.told

    @property
    def had_race_at_first(self) -> bool:
        return "itc_trace: race on" in self.told


def confirmed(texts: dict[str, str], at_once: int = 2) -> Iterator[Ran]:
    """Runs each program by `run --confirm`."""
    with tempfile.TemporaryDirectory() as folder, ThreadPoolExecutor(at_once) as pool:
        def run(name: str, text: str) -> Ran:
            file = Path(folder, f"{name}.py")
            file.write_text(text, encoding="utf-8")
            ran = run_traced("--confirm", os.fspath(file))
            return Ran(name, ran.returncode, ran.stderr)

        yield from pool.map(run, texts, texts.values())


def main() -> None:
    asked = argparse.ArgumentParser(description=__doc__)
    asked.add_argument("--at-once", type=int, default=2)
    words = asked.parse_args()
    for title, forms in (("hidden races", HIDDEN), ("programs in order", CLEAN)):
        ran = list(confirmed(programs(forms), words.at_once))
        met = [one for one in ran if one.is_confirmed]
        races = [one.name for one in ran if one.had_race_at_first]
        print(f"{title}: {len(ran)}, confirmed {len(met)}, a race at first {len(races)} {' '.join(races)}")
        wrong = [one for one in ran if one.is_confirmed != (forms is HIDDEN)]
        for one in wrong:
            print(f"{one.name}: status {one.status}\n{one.told}")
        sys.stdout.flush()


if __name__ == "__main__":
    main()
