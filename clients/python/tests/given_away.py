"""Objects that one task fills and hands over to another one by a container, and those that it only seems to hand over.

What is touched of the container itself is told as ever. So only what is told of other things counts.
"""

from __future__ import annotations

import json
import os
import sys
import textwrap
import threading
import time
from types import ModuleType
from typing import NamedTuple

from itc_trace import tracing
from itc_trace.watch import hooks, things
from itc_trace.watch.decisions import WATCHED
from itc_trace.watch.finder import FILES
from itc_trace.watch.rewrite import rewritten

SETUP = """
import weakref
from collections import deque
todo = deque()
kept = []
names = weakref.WeakValueDictionary()
class Job:
    def __init__(self):
        self.n = 0
        self.rows = [0]
    def fill(self): fill(self.rows, 0)
class Slots:
    __slots__ = ("n",)
one, own, rows_of_all = Job(), {}, [0]
def fill(job, key="n"): job[key] = 1
def filled():
    job = {}
    fill(job)
    return job
def change(job, key="n"): job[key] += 1
def set_n(job, n): job.n = n
"""


class Program(NamedTuple):
    """What two or three tasks do, one after another, with nothing that orders them but what is handed over."""

    name: str
    steps: tuple[str, ...]
    todo: str = "deque()"

    def text(self) -> str:
        bodies = [f"def step_{number}():\n{textwrap.indent(body, '    ')}\n" for number, body in enumerate(self.steps)]
        return f"{SETUP}todo = {self.todo}\n{''.join(bodies)}"


FILLED = "job = {}\nfill(job)\n"
TAKEN = "change(todo.popleft())"
OF_LIST = "change(todo.pop(0))"

CLEAN = (
    Program("a function fills what is appended", (f"{FILLED}todo.append(job)", TAKEN)),
    Program("what is appended comes from a call", ("todo.append(filled())", TAKEN)),
    Program("it is appended at the left", (f"{FILLED}todo.appendleft(job)", "change(todo.pop())")),
    Program("it is handed over by a list", (f"{FILLED}todo.append(job)", OF_LIST), "[]"),
    Program("it is inserted into a list", (f"{FILLED}todo.insert(0, job)", "change(todo.pop())"), "[]"),
    Program("it is a default of a dict", (f"{FILLED}todo.setdefault('a', job)", "change(todo.pop('a'))"), "{}"),
    Program("it is a value of a dict", (f"{FILLED}todo['a'] = job", "change(todo.pop('a'))"), "{}"),
    Program("it is an object with fields", ("job = Job()\nset_n(job, 1)\ntodo.append(job)", "set_n(todo.popleft(), 2)")),
    Program("it is an object with slots", ("job = Slots()\nset_n(job, 1)\ntodo.append(job)", "set_n(todo.popleft(), 2)")),
    Program("a method fills a list of its own", (
        "job = Job()\njob.fill()\ntodo.append(job)", "change(todo.popleft().rows, 0)",
    )),
    Program("a list inside is filled", (
        "job = {'rows': [0]}\nfill(job['rows'], 0)\ntodo.append(job)", "change(todo.popleft()['rows'], 0)",
    )),
    Program("it is an element of a tuple", (f"{FILLED}todo.append((1, job))", "number, job = todo.popleft()\nchange(job)")),
    Program("it is an element of a dict that is made there", (
        f"{FILLED}todo.append({{'name': 'a', 'job': job}})", "change(todo.popleft()['job'])",
    )),
    Program("two tasks hand over one each", (
        f"{FILLED}todo.append(job)", f"{FILLED}todo.append(job)", "change(todo.popleft())\nchange(todo.popleft())",
    )),
    Program("it is handed on once more", (
        f"{FILLED}todo.append(job)", "job = todo.popleft()\nchange(job)\ntodo.append(job)", TAKEN,
    )),
    Program("the giver lets go of it and fills another one", (
        f"{FILLED}todo.append(job)\njob = {{}}\nfill(job)\nchange(job)", TAKEN,
    )),
    Program("it is one of several that are appended in a loop", (
        "for number in range(3):\n    job = {}\n    fill(job)\n    todo.append(job)",
        "while todo:\n    job = todo.popleft()\n    change(job)",
    )),
)
RACING = (
    Program("the giver changes it after the append", (f"{FILLED}todo.append(job)\nchange(job)", TAKEN)),
    Program("the giver changes a list inside after the append", (
        "job = {'rows': [0]}\nfill(job['rows'], 0)\ntodo.append(job)\nchange(job['rows'], 0)",
        "change(todo.popleft()['rows'], 0)",
    )),
    Program("the giver keeps it and changes it later", (
        f"{FILLED}todo.append(job)\nkept.append(job)", TAKEN, "change(kept.pop())",
    )),
    Program("the giver goes on with it in a function that it calls", (
        f"{FILLED}todo.append(job)\nfill(job, 'later')", "todo.popleft().clear()",
    )),
    Program("two tasks get the same one", (f"{FILLED}todo.append(job)\ntodo.append(job)", TAKEN, TAKEN)),
    Program("two tasks get the same one, which was there twice before", (TAKEN, TAKEN), "deque([filled()] * 2)"),
    Program("who takes it puts it back, and it is there twice", (
        "job = todo.popleft()\nchange(job)\ntodo.append(job)", TAKEN,
    ), "deque([filled()] * 2)"),
    Program("it stands in a list of the module before", (
        "job = {}\nkept.append(job)\nfill(job)\ntodo.append(job)", "change(kept[0])",
    )),
    Program("it stands in another list, from which it is taken", (
        "job = {}\nkept.append(job)\nfill(job)\ntodo.append(job)", "change(kept.pop())",
    )),
    Program("a variable of the module refers to it", (
        "fill(own)\ntodo.append(own)", "change(own)",
    )),
    Program("it is put into a variable of the module behind the append", (
        f"global last\n{FILLED}todo.append(job)\nlast = job", TAKEN, "change(last)",
    )),
    Program("a task looks at it and does not take it", (
        f"{FILLED}todo.append(job)", "change(todo[0])", "change(todo.popleft())",
    )),
    Program("another task has changed it before, and who gives it has not touched it", (
        "job = {}\nkept.append(job)\nfill(job)", "todo.append(kept.pop())", TAKEN,
    )),
    Program("two tasks have changed it before with no order", (
        "job = {}\nkept.append(job)\nfill(job)", "job = kept.pop()\nchange(job)\ntodo.append(job)\ndel job", TAKEN,
    )),
    Program("a weak reference leads to it", (
        "job = Job()\nnames['a'] = job\nset_n(job, 1)\ntodo.append(job)", "set_n(names['a'], 2)",
    )),
    Program("a weak reference leads to what it refers to", (
        "job = Job()\nnames['a'] = job\nset_n(job, 1)\ntodo.append({'job': job})\ndel job", "set_n(names['a'], 2)",
    )),
    Program("it refers to a list that others reach", (
        "rows = rows_of_all\nfill(rows, 0)\ntodo.append({'rows': rows})", "change(rows_of_all, 0)",
    )),
    Program("it has a list inside that others reach", (
        "job = {}\nfill(rows_of_all, 0)\njob['rows'] = rows_of_all\ntodo.append(job)", "change(rows_of_all, 0)",
    )),
    Program("an element of the tuple is a field that others reach", (
        "fill(one.rows, 0)\ntodo.append((one.rows, 1))", "change(one.rows, 0)",
    )),
    Program("a function inside has its variable", (
        f"global late\n{FILLED}def late(): change(job)\ntodo.append(job)", "late()",
    )),
    Program("an iterator goes on through it", (
        "global steps\nrows = [0, 1]\nfill(rows, 0)\nsteps = iter(rows)\ntodo.append(rows)",
        "todo.popleft().insert(0, 1)", "for one in steps: pass",
    )),
    Program("a field of the module's object refers to it", (
        "fill(one.rows, 0)\ntodo.append(one.rows)", "change(one.rows, 0)",
    )),
    Program("another function still has it", (
        "global lines\ndef line(job):\n    yield\n    change(job)\n"
        f"{FILLED}lines = line(job)\nnext(lines)\ntodo.append(job)", TAKEN, "list(lines)",
    )),
)
RUNS = 5
BESIDE = frozenset("todo kept names last late steps lines".split())
"""What stands in the programs beside what is handed over. What is told of that is another matter."""


def told() -> set[tuple[str, int]]:
    """The programs of which a race is told, by name and run."""
    hooks.put(False)
    programs = [(f"given_{number}_{run}", program, run) for run in range(RUNS) for number, program in enumerate(CLEAN + RACING)]
    modules = [(_load(program, name), program, run) for name, program, run in programs]
    done: list[int] = []
    with tracing(watched=None) as traced:
        hooks.put(True)
        threads = []
        for step in range(max(len(program.steps) for program in CLEAN + RACING)):
            threads.append(threading.Thread(target=_run_all, args=([module for module, _, _ in modules], step, done)))
            threads[-1].start()
            while step not in done:  # Nothing that is traced tells so.
                time.sleep(0.001)
        for thread in threads:
            thread.join()
        hooks.put(False)
        things.let_go()
    races = traced.races()
    files = {
        os.path.basename(side.place).partition(".")[0]
        for race in [*races.races, *races.possible] if race.thing.partition("[")[0] not in BESIDE for side in race.sides
    }
    return {(program.name, run) for name, program, run in programs if name in files}


def _run_all(modules: list[ModuleType], step: int, done: list[int]) -> None:
    for module in modules:
        getattr(module, f"step_{step}", int)()
    done.append(step)


def _load(program: Program, name: str) -> ModuleType:
    module = sys.modules[name] = ModuleType(name)
    module.__file__ = f"{name}.py"
    WATCHED.add(name)
    FILES.add(module.__file__)
    exec(rewritten(program.text(), module.__file__, name, lambda name: False), vars(module))
    return module


if __name__ == "__main__":
    print("", json.dumps(sorted(told())), sep="\n")
