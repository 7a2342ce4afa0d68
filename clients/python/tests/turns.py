"""What tasks of one loop do in turns: whether a change is made from a look of an earlier turn.

Each form has tasks that look at something and change it, with a `turn()` between two turns of the loop. `python3 -m
tests.turns` runs all of them in this process, and prints which have another answer than is due.
"""

from __future__ import annotations

import asyncio
import json
import os
import sys
import textwrap
from collections.abc import Iterator
from types import ModuleType
from typing import NamedTuple

from itc_trace import Races, tracing
from itc_trace.watch import hooks, things
from itc_trace.watch.decisions import WATCHED
from itc_trace.watch.finder import FILES
from itc_trace.watch.rewrite import rewritten

CLEAN, RACE, POSSIBLE = "no race", "race", "possible race"
BEGIN = """
import asyncio
from collections import OrderedDict, defaultdict, deque
async def turn(): await asyncio.sleep(0)
class Place: pass
place = Place()
place.busy, place.names, place.table = set(), [], {}
place.idle, place.waiting, place.ordered = deque("abc"), deque(), OrderedDict()
place.level, place.is_open, place.state, place.count = 1, False, "idle", 0
"""


class Form(NamedTuple):
    """What tasks do. `one` and `other` are what two functions do, each of which has a key of its own."""

    answer: str
    name: str
    one: str
    other: str = ""
    more: str = ""

    def text(self) -> str:
        """The module's source. If nothing else is said, two tasks do the same."""
        functions = f"async def one(key):\n{textwrap.indent(self.one, '    ')}\n"
        second = "one"
        if self.other:
            functions += f"async def other(key):\n{textwrap.indent(self.other, '    ')}\n"
            second = "other"
        run = f"async def run(): await asyncio.gather(one(1), {second}(2), one(3))"
        return f"{BEGIN}{self.more}\n{functions}{run}\n"


def _listed(answer: str, text: str) -> Iterator[Form]:
    """Forms by their texts: a name behind `##`, what one task does, and behind `--` what the other one does.

    What stands behind `++` is of the module.
    """
    for part in text.split("##")[1:]:
        name, _, rest = part.partition("\n")
        rest, _, more = rest.partition("++\n")
        one, _, other = rest.partition("--\n")
        yield Form(answer, name.strip(), *(textwrap.dedent(block).strip("\n") for block in (one, other, more)))


ONE_STEP = """
## a place is taken in the turn of the look, and left in a later one
if len(place.busy) < 10:
    place.busy.add(key)
    await turn()
    place.busy.remove(key)
## so it is beside what others add
if len(place.busy) < 10:
    place.busy.add(key)
    await turn()
    place.busy.discard(key)
--
place.busy.add(key)
## a place is left whatever happens
if len(place.busy) < 10:
    place.busy.add(key)
    try:
        await turn()
    finally:
        place.busy.remove(key)
## a place is taken within what is tried
if not place.busy or len(place.busy) < 5:
    try:
        place.busy.add(key)
        await turn()
        await turn()
    finally:
        place.busy.discard(key)
## a place is left by whoever fails
if len(place.busy) < 10:
    place.busy.add(key)
    try:
        await turn()
        if not place.is_open:
            raise ValueError
    except ValueError:
        place.busy.remove(key)
    else:
        place.busy.remove(key)
## one is borrowed and given back
if place.idle:
    name = place.idle.popleft()
    await turn()
    place.idle.append(name)
## one is borrowed from a list
if place.names:
    name = place.names.pop()
    await turn()
    place.names.append(name)
++
place.names.extend("abc")
## whoever waits takes itself out again
if len(place.waiting) < 10:
    place.waiting.append(key)
    await turn()
    place.waiting.remove(key)
## a key is put and deleted
if len(place.table) < 10:
    place.table[key] = 1
    await turn()
    del place.table[key]
## a key is put and popped
if len(place.table) < 10:
    place.table[key] = "at work"
    await turn()
    place.table.pop(key, None)
## an element of an ordered table
if len(place.ordered) < 10:
    place.ordered[key] = 1
    await turn()
    place.ordered.pop(key)
## a variable has the container
busy = place.busy
if len(busy) < 10:
    busy.add(key)
    await turn()
    busy.remove(key)
## an object of its own stands for a task
me = object()
if len(place.busy) < 10:
    place.busy.add(me)
    await turn()
    place.busy.remove(me)
## a pair stands for a task
if len(place.busy) < 10:
    place.busy.add((key, 1))
    await turn()
    place.busy.remove((key, 1))
## it is looked at once more meanwhile
if len(place.busy) < 10:
    place.busy.add(key)
    await turn()
    print(end="" if len(place.busy) < 9 else "\\r")
    await turn()
    place.busy.remove(key)
## a closed place fails meanwhile
if len(place.busy) < 10:
    place.busy.add(key)
    await turn()
    if place.is_open:
        return
    place.busy.remove(key)
## a number is looked at again in the turn that changes it
if place.count < 10:
    place.count += 1
    await turn()
    place.count -= 1
## the same in several rounds
for _ in range(3):
    if len(place.busy) < 10:
        place.busy.add(key)
        await turn()
        place.busy.remove(key)
    await turn()
## a flag keeps the same function out
if not place.is_open:
    place.is_open = True
    await turn()
    place.is_open = False
## a flag is taken again by who comes later
for _ in range(9 * key):
    await turn()
if not place.is_open:
    place.is_open = True
    await turn()
    place.is_open = False
## a state is set back by each who comes later
for _ in range(9 * key):
    await turn()
if place.state == "idle":
    place.state = "at work"
    try:
        await turn()
    finally:
        place.state = "idle"
## a flag keeps it out, in any case
if place.is_open:
    return
place.is_open = True
try:
    await turn()
finally:
    place.is_open = False
## a flag is waited for
while place.is_open:
    await turn()
place.is_open = True
await turn()
place.is_open = False
## a state is set back
if place.state == "idle":
    place.state = "at work"
    await turn()
    place.state = "idle"
## a variable of the module is the flag
global is_busy
if not is_busy:
    is_busy = True
    await turn()
    is_busy = False
++
is_busy = False
## a key is the flag of what it stands for
if "feed" not in place.table:
    place.table["feed"] = True
    await turn()
    del place.table["feed"]
## whoever waits first is woken
if place.waiting:
    place.waiting.popleft()
await turn()
if place.waiting:
    place.waiting.popleft()
++
place.waiting.extend("abcdef")
## each turn looks by itself
if "a" in place.table:
    place.table["a"] += 1
await turn()
if "a" in place.table:
    place.table["a"] += 1
++
place.table["a"] = 1
## a place of an element is taken and left
if len(place.rooms["a"]) < 10:
    place.rooms["a"].add(key)
    await turn()
    place.rooms["a"].discard(key)
++
place.rooms = {"a": set()}
## a place is left under a context
if len(place.busy) < 10:
    place.busy.add(key)
    with contextlib.suppress(ValueError):
        await turn()
    place.busy.remove(key)
++
import contextlib
## a place is left behind a loop of turns
if len(place.busy) < 10:
    place.busy.add(key)
    for _ in range(3):
        await turn()
    place.busy.remove(key)
## a task waits for room, and looks again
while len(place.busy) >= 2:
    await turn()
place.busy.add(key)
await turn()
place.busy.remove(key)
## a task that is cancelled leaves its place
if len(place.busy) < 10:
    place.busy.add(key)
    try:
        await turn()
    except asyncio.CancelledError:
        place.busy.discard(key)
        raise
    place.busy.discard(key)
## a method takes the place of its object
await Guest(key).visit()
++
class Guest:
    def __init__(self, key): self.key = key
    async def visit(self):
        if len(place.busy) < 10:
            place.busy.add(self)
            await turn()
            place.busy.discard(self)
## a class keeps the places
await pool.work(key)
++
class Pool:
    def __init__(self): self.busy = set()
    async def work(self, key):
        if len(self.busy) < 10:
            self.busy.add(key)
            try:
                await turn()
            finally:
                self.busy.remove(key)
pool = Pool()
## a connector has a placeholder while it connects
connection = await connect(key)
await turn()
++
acquired, limit, is_closed = set(), 10, False
async def connect(key):
    available = limit - len(acquired)
    if available <= 0:
        return None
    placeholder = object()
    acquired.add(placeholder)
    try:
        await turn()
    finally:
        acquired.remove(placeholder)
    return placeholder
## a key that is there is left alone
if key not in place.table:
    place.table[key] = 1
    await turn()
    place.table.pop(key)
## one is borrowed from the right end
if place.idle:
    name = place.idle.pop()
    await turn()
    place.idle.appendleft(name)
## one is borrowed in a loop
for _ in range(2):
    if place.idle:
        name = place.idle.popleft()
        try:
            await turn()
        finally:
            place.idle.append(name)
## a generator stands between the turns
if len(place.busy) < 10:
    place.busy.add(key)
    async for _ in steps():
        pass
    place.busy.remove(key)
++
async def steps():
    for number in range(3):
        await turn()
        yield number
## a list is looked at and added to at once
if key not in place.names:
    place.names.append(key)
await turn()
## what is longest is looked up in each turn
if place.table and max(place.table.values()) < 9:
    place.table[key] = max(place.table.values()) + 1
await turn()
## nothing is looked at
place.state = "begun"
await turn()
place.state = "ended"
## who looks starts the task that changes, and waits for it
if key == 1:
    seen = place.count
    await asyncio.create_task(add())
    place.count = seen + 1
++
async def add(): place.count += 1
## who has written back starts the task that changes
if key == 1:
    seen = place.count
    await turn()
    place.count = seen + 1
    task = asyncio.create_task(add())
    await turn()
    await task
++
async def add(): place.count += 1
"""

SPLIT = """
## what is first is remembered, and decides at last
is_first = not place.busy
place.busy.add(key)
try:
    await turn()
finally:
    if is_first:
        place.busy.remove(key)
## a value that was kept raises in what is called
size = len(place.busy)
place.busy.add(key)
try:
    await turn()
    check(size)
except ValueError:
    place.busy.remove(key)
++
def check(size):
    if size < 2:
        raise ValueError
## a level that was kept is set back at last
old = place.level
place.level = 0
try:
    await turn()
finally:
    place.level = old
## a number is written back in a later turn
left = place.level
await turn()
place.level = left + 1
## a place is looked for in one turn and taken in another
if len(place.busy) < 2:
    await turn()
    place.busy.add(key)
## what is first is remembered
is_first = not place.busy
place.busy.add(key)
await turn()
if is_first:
    place.busy.remove(key)
## what is first is remembered, and goes at once if it is not
is_first = not place.busy
place.busy.add(key)
await turn()
if not is_first:
    return
place.busy.remove(key)
## the number of places is a key
size = len(place.busy)
place.busy.add(key)
await turn()
place.busy.add(size + 10)
## a level is kept and set back
old = place.level
place.level = 0
await turn()
place.level = old
## a level is set back to what it was, as a number
old = place.level
place.level = 0
await turn()
if old == 1:
    place.level = 1
## a flag is set back, beside a function that does not ask
if not place.is_open:
    place.is_open = True
    await turn()
    place.is_open = False
--
await turn()
place.is_open = True
## a flag is set back, beside another function that asks
if place.state == "idle":
    place.state = "at work"
    await turn()
    place.state = "idle"
--
if place.state != "closed":
    place.state = "closed"
## a flag is looked at and keeps nobody out
print(end="" if place.state else "\\r")
place.state = "at work"
await turn()
place.state = "idle"
## a flag is set once more, with no look
for _ in range(9 if key > 1 else 0):
    await turn()
if not place.is_open:
    place.is_open = True
    await turn()
    place.is_open = False
    await turn()
    place.is_open = True
    await turn()
    place.is_open = False
## a position is kept
at = len(place.names) - 9
place.names.append(key)
await turn()
del place.names[at]
++
place.names.extend("abcdefghijkl")
## a position is put and deleted
at = len(place.names) - 9
place.names[at] = None
await turn()
del place.names[at]
++
place.names.extend("abcdefghijkl")
## the victim was looked for in an earlier turn
victim = next(iter(place.busy))
place.busy.add(key)
await turn()
place.busy.discard(victim)
++
place.busy.update("abc")
## a look behind the change decides
place.busy.add(key)
if len(place.busy) > 1:
    await turn()
    place.busy.discard(key)
## a look of a later turn decides
place.busy.add(key)
await turn()
if len(place.busy) > 1:
    await turn()
    place.busy.discard(key)
## a look of a later turn decides who goes on
if len(place.busy) < 10:
    place.busy.add(key)
    await turn()
    if len(place.busy) > 5:
        return
    await turn()
    place.busy.remove(key)
## a value that was kept raises
size = len(place.busy)
place.busy.add(key)
try:
    await turn()
    if size < 2:
        raise ValueError
except ValueError:
    place.busy.remove(key)
## a place of an element is looked for too early
if len(place.rooms["a"]) < 2:
    await turn()
    place.rooms["a"].add(key)
++
place.rooms = {"a": set()}
## the first one makes, in another turn
if not place.names:
    await turn()
    place.names.append(key)
## a class looks in one turn and counts in another
await pool.work(key)
++
class Pool:
    def __init__(self): self.count = 0
    async def work(self, key):
        seen = self.count
        await turn()
        self.count = seen + 1
pool = Pool()
## a number goes down in another turn
if place.level > 0:
    await turn()
    place.level = 0
## what was taken out is put elsewhere, and counted late
count = len(place.idle)
place.idle.append(place.idle.popleft())
await turn()
place.idle.append(count)
## a table is made once
if "made" not in place.table:
    await turn()
    place.table["made"] = key
## a pending mark is put in place of the look
is_new = "made" not in place.table
place.table["pending"] = True
await turn()
if is_new:
    place.table["made"] = key
## a loop goes on in a later turn
for one in list(place.table):
    await turn()
    place.table[key] = one
++
place.table["a"] = 1
## what is read before the await is added behind it
place.count = place.count + await number()
++
async def number():
    await turn()
    return 1
## the same in place
place.count += await number()
++
async def number():
    await turn()
    return 1
## a list is replaced by a longer one
names = list(place.names)
await turn()
place.names = [*names, key]
## two fields that belong together
if place.level > 0:
    await turn()
    place.level = 0
    await turn()
    place.level = 1
## who looks starts the task that changes meanwhile
if key == 1:
    seen = place.count
    task = asyncio.create_task(add())
    await turn()
    place.count = seen + 1
    await task
++
async def add(): place.count += 1
## all have looked before any of them writes
seen = place.count
await looked.wait()
place.count = seen + 1
++
looked = asyncio.Barrier(3)
## a flag of a helper keeps nobody out
seen = place.is_open
place.is_open = True
await turn()
if not seen:
    place.is_open = False
"""

OPEN = """
## another key is taken away
if len(place.busy) < 10:
    place.busy.add(key)
    await turn()
    for one in victims:
        place.busy.discard(one)
++
victims = "a"
## a key is bound anew
if len(place.busy) < 10:
    place.busy.add(key)
    await turn()
    key = max(keys)
    place.busy.discard(key)
++
keys = [1, 2, 3]
## another function gives the place back
if len(place.busy) < 10:
    place.busy.add(key)
    await turn()
    give_back(key)
++
def give_back(key): place.busy.remove(key)
## a limiter has a method to take a place, and one to leave it
limiter.acquire(key)
await turn()
limiter.release(key)
++
class Limiter:
    def __init__(self): self.borrowers, self.waiting, self.total = set(), OrderedDict(), 10
    def acquire(self, key):
        if key in self.borrowers: raise RuntimeError
        if self.waiting or len(self.borrowers) >= self.total: raise ValueError
        self.borrowers.add(key)
    def release(self, key):
        try:
            self.borrowers.remove(key)
        except KeyError:
            raise RuntimeError from None
        if self.waiting and len(self.borrowers) < self.total: self.waiting.popitem(last=False)
limiter = Limiter()
## a context takes a place and leaves it
async with Room(key):
    await turn()
++
class Room:
    def __init__(self, key): self.key = key
    async def __aenter__(self):
        if len(place.busy) < 10:
            place.busy.add(self.key)
    async def __aexit__(self, *fault):
        place.busy.discard(self)
## whoever comes puts itself to those who wait
wake()
await turn()
await stand(key)
++
place.waiting.extend("abcdef")
def wake():
    if place.waiting:
        place.waiting.popleft()
async def stand(key):
    place.waiting.append(key)
    await turn()
"""

FORMS = (*_listed(CLEAN, ONE_STEP), *_listed(RACE, SPLIT), *_listed(POSSIBLE, OPEN))


def _load(form: Form, name: str) -> ModuleType:
    module = sys.modules[name] = ModuleType(name)
    module.__file__ = f"{name}.py"
    WATCHED.add(name)
    FILES.add(module.__file__)
    exec(rewritten(form.text(), module.__file__, name, lambda name: False), vars(module))
    return module


async def _run_all(modules: list[ModuleType], faults: dict[str, str]) -> None:
    for module in modules:
        try:
            await module.run()
        except Exception as fault:
            faults[module.__name__] = f"{type(fault).__name__}: {fault}"


def told_of(forms: list[Form]) -> list[str]:
    """The forms that have another answer, each with this."""
    faults: dict[str, str] = {}
    hooks.put(False)
    modules = [_load(form, f"form_{number}") for number, form in enumerate(forms)]
    with tracing(watched=None) as traced:
        hooks.put(True)
        asyncio.run(_run_all(modules, faults))
        hooks.put(False)
        things.let_go()
    races = traced.races()
    answers = dict.fromkeys((module.__name__ for module in modules), CLEAN)
    answers |= {name: POSSIBLE for name in _modules_of(races.possible)} | {name: RACE for name in _modules_of(races.races)}
    wrong = [
        f"{form.name}: {answer}" for form, answer in zip(forms, answers.values()) if form.answer != answer
    ]
    return [*wrong, *(f"{forms[int(name.removeprefix('form_'))].name}: {fault}" for name, fault in faults.items())]


def _modules_of(races: Races | list[object]) -> set[str]:
    return {os.path.basename(side.place).partition(".")[0] for race in races for side in race.sides}  # type: ignore


if __name__ == "__main__":
    print("", json.dumps(told_of(list(FORMS))), sep="\n")
