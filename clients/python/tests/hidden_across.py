"""Small programs of several processes: what these share is touched in order by nothing but a lock that goes from one
to the other, and the same touches as something else keeps them in order.

A program has a form, which is how its two processes go on, and what they share. `FIRST` and `SECOND` stand for the
touches, and `MADE` for how that is made. `python3 -m tests.hidden_across` runs all of them by `run --confirm`, and
prints which are confirmed.
"""

from __future__ import annotations

import sys
from typing import NamedTuple

from .hidden_races import confirmed


class Shared(NamedTuple):
    """What two processes touch: how it is made, and the statement of each."""

    made: str
    first: str
    second: str


SHARED = {
    "value": Shared("multiprocessing.Value('i', 0, lock=False)", "one.value = 5", "seen = one.value"),
    "array": Shared("multiprocessing.RawArray('i', 4)", "one[1] = 5", "one[1] += 1"),
    "memory": Shared("shared_memory.SharedMemory(create=True, size=16)", "one.buf[3] = 5", "seen = bytes(one.buf[2:6])"),
    "table": Shared("manager.dict(left=5)", "one['left'] = 4", "seen = one['left']"),
    "list": Shared("shared_memory.ShareableList([1, 2])", "one[0] = 5", "seen = one[0]"),
}

BEGIN = """\
import multiprocessing, os, time
from multiprocessing import shared_memory
def go_first():
    open(__file__ + ".first", "w").close()
def come_later():
    while not os.path.exists(__file__ + ".first"):
        time.sleep(0.01)
"""
"""A file is there from the first run on, which so has its order. It gives none to further runs, and is not traced."""
END = """
def clean(one):
    block = getattr(one, "shm", one)
    if hasattr(block, "unlink"):
        block.close()
        block.unlink()
if __name__ == "__main__":
    multiprocessing.set_start_method("START")
    manager = multiprocessing.Manager() if "manager" in "MADE BY" else None
    one, by = MADE, BY
    ones = [multiprocessing.Process(target=work, args=(one, by)) for work in (first, second)]
    for process in ones:
        process.start()
    for process in ones:
        process.join()
    clean(one)
"""
PASSED = "def first(one, by):\n    FIRST\n    with by:\n        pass\n    go_first()\n"
PASSED_LATER = "def second(one, by):\n    come_later()\n    with by:\n        pass\n    SECOND\n"
LOCK = "multiprocessing.Lock()"


class Form(NamedTuple):
    by: str
    """What orders the two processes."""
    text: str
    is_told: bool = True
    """Whether the pair is told as possible. Else the last line counts it."""


HIDDEN = {
    "lock": Form(LOCK, PASSED + PASSED_LATER),
    "recursive_lock": Form("multiprocessing.RLock()", """
def step(by):
    by.acquire()
    by.acquire()
    by.release()
    by.release()
def first(one, by):
    FIRST
    step(by)
    go_first()
def second(one, by):
    come_later()
    step(by)
    SECOND
"""),
    "one_permit": Form("multiprocessing.Semaphore(1)", PASSED + PASSED_LATER, is_told=False),
    "lock_of_condition": Form("multiprocessing.Condition()", PASSED + PASSED_LATER, is_told=False),
    "lock_of_value": Form("multiprocessing.Value('i', 0)", """
def first(one, by):
    FIRST
    with by.get_lock():
        by.value += 1
    go_first()
def second(one, by):
    come_later()
    with by.get_lock():
        by.value += 1
    SECOND
"""),
    "lock_of_array": Form("multiprocessing.Array('i', 2)", """
def first(one, by):
    FIRST
    by[0] = 1
    go_first()
def second(one, by):
    come_later()
    by[1] = 1
    SECOND
"""),
    "lock_of_manager": Form("manager.Lock()", PASSED + PASSED_LATER),
    "first_holds": Form(LOCK, "def first(one, by):\n    with by:\n        FIRST\n    go_first()\n" + PASSED_LATER),
    "second_holds": Form(
        LOCK, PASSED + "def second(one, by):\n    come_later()\n    with by:\n        SECOND\n",
    ),
    "permits": Form("multiprocessing.Semaphore(2)", """
def first(one, by):
    FIRST
    for _ in range(2):
        with by:
            pass
    go_first()
def second(one, by):
    come_later()
    with by:
        pass
    SECOND
""", is_told=False),
    "recursive_lock_of_manager": Form("manager.RLock()", PASSED + PASSED_LATER),
}
"""Another order of the two processes would have the touches meet."""
CLEAN = {
    "common_lock": Form(LOCK, """
def first(one, by):
    with by:
        FIRST
    go_first()
def second(one, by):
    come_later()
    with by:
        SECOND
"""),
    "common_lock_of_manager": Form("manager.Lock()", """
def first(one, by):
    with by:
        FIRST
def second(one, by):
    with by:
        SECOND
"""),
    "queue": Form("multiprocessing.Queue()", """
def first(one, by):
    FIRST
    by.put(1)
def second(one, by):
    by.get()
    SECOND
"""),
    "queue_of_manager": Form("manager.Queue()", """
def first(one, by):
    FIRST
    by.put(1)
def second(one, by):
    by.get()
    SECOND
"""),
    "event": Form("multiprocessing.Event()", """
def first(one, by):
    FIRST
    by.set()
def second(one, by):
    by.wait()
    SECOND
"""),
    "barrier": Form("multiprocessing.Barrier(2)", """
def first(one, by):
    FIRST
    by.wait()
def second(one, by):
    by.wait()
    SECOND
"""),
    "pipe": Form("multiprocessing.Pipe()", """
def first(one, by):
    FIRST
    by[0].send(1)
def second(one, by):
    by[1].recv()
    SECOND
"""),
    "notified": Form("multiprocessing.Condition()", """
def first(one, by):
    FIRST
    while not by._sleeping_count._semlock._get_value():
        time.sleep(0.01)
    with by:
        by.notify()
def second(one, by):
    with by:
        by.wait()
    SECOND
"""),
    "signal_by_lock": Form("locked(multiprocessing.Lock())", """
def locked(lock):
    lock.acquire()
    return lock
def first(one, by):
    FIRST
    by.release()
def second(one, by):
    by.acquire()
    SECOND
"""),
    "signal_by_permit": Form("multiprocessing.Semaphore(0)", """
def first(one, by):
    FIRST
    by.release()
def second(one, by):
    by.acquire()
    SECOND
"""),
    "join_under_a_lock": Form(LOCK, """
def write(one):
    FIRST
def read(one):
    SECOND
def first(one, by):
    with by:
        child = multiprocessing.Process(target=write, args=(one,))
        child.start()
        child.join()
    go_first()
def second(one, by):
    come_later()
    with by:
        child = multiprocessing.Process(target=read, args=(one,))
        child.start()
        child.join()
"""),
}
"""Something else than luck keeps the two touches in order, or apart."""
STARTS = ("fork", "spawn")


def program(form: Form, shared: Shared, start: str) -> str:
    text = BEGIN + form.text.lstrip("\n") + END
    words = {
        "MADE BY": f"{shared.made} {form.by}".replace('"', "'"), "MADE": shared.made, "BY": form.by,
        "FIRST": shared.first, "SECOND": shared.second, "START": start,
    }
    for word, told in words.items():
        text = text.replace(word, told)
    return text


def programs(forms: dict[str, Form]) -> dict[str, str]:
    """All programs of these forms, by their names: each with two kinds of what is shared, and both starts."""
    kinds = list(SHARED)
    return {
        f"{form}_{kinds[(2 * place + further) % len(kinds)]}_{start}": program(
            text, SHARED[kinds[(2 * place + further) % len(kinds)]], start,
        )
        for place, (form, text) in enumerate(forms.items()) for further, start in enumerate(STARTS)
    }


def main() -> None:
    for title, forms in (("hidden races", HIDDEN), ("programs in order", CLEAN)):
        ran = list(confirmed(programs(forms), 2))
        met = [one.name for one in ran if one.is_confirmed]
        races = [one.name for one in ran if one.had_race_at_first]
        print(f"{title}: {len(ran)}, confirmed {len(met)}, a race at first {len(races)} {' '.join(races)}")
        for one in ran:
            if one.is_confirmed != (forms is HIDDEN):
                print(f"{one.name}: status {one.status}\n{one.told}")
        sys.stdout.flush()


if __name__ == "__main__":
    main()
