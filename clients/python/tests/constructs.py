"""Small programs of two threads, each with the answer that is due by its own text, chapter by chapter of the language's
reference and of the library's index.

`first` and `second` run one after another, each in a thread of its own, and nothing orders them. What is due stands
behind the lines:

    table["a"] = 1  # race          this line is a side of a race that is told
    exec(text)  # star exec         this line is named in the last line of the list, by these words

No other line is told or named. With a lock around both functions there is no race. `python3 -m tests.constructs` runs
all, and prints which have another answer.
"""

from __future__ import annotations

import json
import os
import re
import sys
import textwrap
from collections.abc import Iterable, Iterator
from typing import NamedTuple

from itc_trace import Races
from itc_trace.analyse.races import Race
from itc_trace.watch import passed_over

from . import further_constructs
from .pairs import Pair, races_of

TOLD, STARRED, CLEAN = "told", "starred", "clean"
_MARK = re.compile(r"# (race)?(?:; )?(?:star (.+))?$")
_NAME = re.compile(r"^pair_(\d+)\.py:(\d+)$")
OWN_TASKS = "of other tasks: "
"""Stands before the name of a program that has another task touch something, which does not hold the lock."""
UNDER_LOCK = """
def under_lock(step):
    def run():
        with lock:
            step()
    return run
first, second = under_lock(first), under_lock(second)
"""


class Construct(NamedTuple):
    """A program."""

    chapter: str
    name: str
    source: str

    def text(self, lock: str) -> str:
        return self.source + (UNDER_LOCK if lock else "")

    @property
    def due(self) -> Answer:
        """What its own text says."""
        marks = [(number, mark) for number, line in enumerate(self.source.splitlines(), 1) if (mark := _MARK.search(line))]
        return Answer(
            frozenset(number for number, mark in marks if mark[1]), frozenset((number, mark[2]) for number, mark in marks if mark[2]),
        )

    @property
    def kind(self) -> str:
        return TOLD if self.due.lines else STARRED if self.due.stars else CLEAN


class Answer(NamedTuple):
    """The lines that are told as sides of races, and those that are named, with the words."""

    lines: frozenset[int]
    stars: frozenset[tuple[int, str]]

    def __str__(self) -> str:
        return f"lines {sorted(self.lines)}, stars {sorted(self.stars)}"


OBJECTS = """
## a descriptor keeps its values in the fields of the object
class Kept:
    def __set_name__(self, owner, name): self.name = "_" + name
    def __get__(self, one, kind=None): return vars(one)[self.name]  # race
    def __set__(self, one, value): vars(one)[self.name] = value  # race
class Row:
    price = Kept()
row = Row()
row.price = 1
def first(): row.price = 2
def second(): row.price
## a descriptor keeps its values by weak keys
import weakref
class Kept:
    def __init__(self): self.values = weakref.WeakKeyDictionary()
    def __get__(self, one, kind=None): return self.values[one]  # race
    def __set__(self, one, value): self.values[one] = value  # race
class Row:
    price = Kept()
row = Row()
row.price = 1
def first(): row.price = 2
def second(): row.price
## a descriptor is told its name, and keeps it in a list
names = []
class Field:
    def __set_name__(self, owner, name): names.append(name)  # race
def first():
    class Row:
        one = Field()
def second(): len(names)  # race
## a class below is kept by the one above
class Base:
    kinds = []
    def __init_subclass__(cls, **named): Base.kinds.append(cls)  # race
def first():
    class Lower(Base): pass
def second(): len(Base.kinds)  # race
## a class is made for a type, and is kept
class Box:
    made = {}
    def __class_getitem__(cls, item):
        return cls.made.setdefault(item, type(item.__name__, (cls,), {}))  # race
def first(): Box[int]
def second(): list(Box.made)  # race
## a metaclass counts the objects
class Meta(type):
    calls = 0
    def __call__(cls, *words):
        Meta.calls += 1  # race
        return super().__call__(*words)
class One(metaclass=Meta): pass
def first(): One()
def second(): One.calls  # race
## a property of a metaclass
class Meta(type):
    @property
    def level(cls): return cls._level  # race
    @level.setter
    def level(cls, value): cls._level = value  # race
class Log(metaclass=Meta):
    _level = 1
def first(): Log.level = 2
def second(): Log.level
## a module makes what it lacks
import sys
loaded = {}
def __getattr__(name):
    if name not in loaded:  # race
        loaded[name] = [name]  # race
    return loaded[name]  # race
me = sys.modules[__name__]
def first(): me.tables
def second(): me.tables
## special methods look at a field
class Gate:
    def __init__(self): self.n = 1
    def __bool__(self): return self.n > 0  # race
    def __iter__(self): return iter((self.n,))  # race
    def __contains__(self, one): return one == self.n  # race
    def __hash__(self): return self.n  # race
    def __format__(self, how): return str(self.n)  # race
    def __eq__(self, other): return self.n == other  # race
    def __lt__(self, other): return self.n < other  # race
    def __index__(self): return self.n  # race
    def __call__(self): return self.n  # race
    def __enter__(self): return self.n  # race
    def __exit__(self, *fault): self.n  # race
    def __reversed__(self): return iter((self.n,))  # race
    def __getitem__(self, key): return self.n  # race
    def __neg__(self): return -self.n  # race
gate = Gate()
def first(): gate.n = 2  # race
def second():
    if gate: pass
    list(gate), 3 in gate, hash(gate), f"{gate:x}", gate == 1, gate < 1, [1, 2, 3][gate], gate()
    with gate: pass
    list(reversed(gate)), gate["a"], -gate
## a table makes what it lacks
class Table(dict):
    def __missing__(self, key):
        self[key] = []  # race
        return self[key]
table = Table()
def first(): table["a"]
def second(): table["a"]  # race
## a container of the program has the methods of an abstract one
from collections.abc import MutableMapping
class Store(MutableMapping):
    def __init__(self): self.rows = {"a": 1}
    def __getitem__(self, key): return self.rows[key]  # race
    def __setitem__(self, key, value): self.rows[key] = value  # race
    def __delitem__(self, key): del self.rows[key]
    def __iter__(self): return iter(self.rows)
    def __len__(self): return len(self.rows)
store = Store()
def first(): store.update(a=2)
def second(): store.get("a")
## a text and a number have fields
class Name(str): pass
class Number(int): pass
class Row(tuple): pass
name, number, row = Name("a"), Number(1), Row((1,))
name.seen = number.seen = row.seen = 0
def first():
    name.seen = 1  # race
    number.seen = 1  # race
    row.seen = 1  # race
def second():
    name.seen  # race
    number.seen  # race
    row.seen  # race
## a member of an enumeration has another name
import enum
class Color(enum.Enum):
    RED = 1
    SCARLET = 1
Color.RED.seen = 0
def first(): Color.SCARLET.seen = 1  # race
def second(): Color.RED.seen  # race
## fields of exceptions of the language
end, text, source, lacks, stop = SystemExit(1), UnicodeDecodeError("a", b"b", 0, 1, "c"), SyntaxError(), ImportError(), StopIteration()
def first():
    end.code = 2  # race
    text.start = 1  # race
    source.lineno = 3  # race
    lacks.name = "a"  # race
    stop.value = 1  # race
def second():
    end.code  # race
    text.start  # race
    source.lineno  # race
    lacks.name  # race
    stop.value  # race
## the annotations of a function and of a class
def work(a: int): pass
class Row:
    x: int
def first():
    work.__annotations__["b"] = int  # race
    Row.__annotations__["y"] = int  # race
def second():
    dict(work.__annotations__)  # race
    list(Row.__annotations__)  # race
## a class gets an attribute past its own methods
class Base: pass
one = Base()
def first(): type.__setattr__(Base, "fresh", 1)  # race
def second(): getattr(one, "fresh", None)  # race
## a method is replaced in the fields of its object
class Base:
    def close(self): return 1
one = Base()
def free(): return 2
def first(): vars(one)["close"] = free  # race
def second(): one.close()  # race
## a container is made anew in its place
from collections import deque
items, table, marks, line = [1], {"a": 1}, {1}, deque([1])
def first():
    items.__init__([2])  # race
    table.__init__(a=2)  # race
    marks.__init__({2})  # race
    list.__init__(items, [3])  # race
    line.__init__([2])  # race
def second():
    list(items)  # race
    list(table.items())  # race
    1 in marks  # race
    line[0]  # race
## two classes have a private field of one name
class Base:
    def put(self): self.__n = 1
class Lower(Base):
    def get(self): return getattr(self, "_Lower__n", None)
    def add(self): self.__n = 2
one = Lower()
def first(): one.put()
def second(): one.get(), one.add()
## a property of a metaclass has a lock of its own
import threading
guard = threading.Lock()
class Meta(type):
    @property
    def level(cls):
        with guard: return cls._level
    @level.setter
    def level(cls, value):
        with guard: cls._level = value
class Log(metaclass=Meta):
    _level = 1
def first(): Log.level = 2
def second(): Log.level
## a descriptor has a lock of its own
import threading
class Kept:
    def __init__(self): self.lock, self.values = threading.Lock(), {}
    def __get__(self, one, kind=None):
        with self.lock: return self.values.get(id(one))
    def __set__(self, one, value):
        with self.lock: self.values[id(one)] = value
class Row:
    price = Kept()
row = Row()
def first(): row.price = 2
def second(): row.price
## a name that only one of two classes stores
class Base:
    def close(self): return 1
class Other:
    def close(self): return 1
one, other = Base(), Other()
def first(): other.close = one.close
def second(): one.close()
## slots of one name in two objects
class Slots:
    __slots__ = ("left",)
one, other = Slots(), Slots()
one.left = other.left = 1
def first(): one.left += 1
def second(): other.left += 1
## an object has the hash and the value of another one, and other fields
class Key:
    def __eq__(self, other): return type(other) is Key
    def __hash__(self): return 1
one, other = Key(), Key()
def first(): one.n = 1
def second(): other.n = 1
"""

STATEMENTS = """
## a loop takes apart into a field
class State: pass
state = State()
state.rest = []
def first():
    for one, *state.rest in [(1, 2, 3)]: pass  # race
def second(): state.rest  # race
## an element of a field is added to
class Shop: pass
shop = Shop()
shop.counts = {"a": 1}
def first(): shop.counts["a"] += 1  # race
def second(): shop.counts.get("a")  # race
## several things are deleted at once
class Shop: pass
shop, table, rows = Shop(), {"a": 1}, [1, 2]
shop.left = 1
def first():
    del shop.left, table["a"], rows[0]  # race
def second():
    getattr(shop, "left", None)  # race
    table.get("a")  # race
    len(rows)  # race
## contexts bind an element and a field
import contextlib
class Shop: pass
shop, table = Shop(), {"a": 1}
shop.left = 1
def first():
    with contextlib.nullcontext(2) as table["a"], contextlib.nullcontext(3) as shop.left: pass  # race
def second():
    table["a"]  # race
    shop.left  # race
## the body of a class binds a variable of the function around it
def make():
    level = 1
    def change():
        class Inner:
            nonlocal level
            level = 2  # race
    def look(): return level  # race
    return change, look
change, look = make()
def first(): change()
def second(): look()
## a default that is kept between calls
def add(one, seen=[]):
    if one not in seen:  # race
        seen.append(one)  # race
def first(): add(1)
def second(): add(2)
## a default by its name that is kept between calls
def count(*, totals={"n": 0}): totals["n"] += 1  # race
def first(): count()
def second(): count()
## a cause is a field
class State: pass
state = State()
state.fault = ValueError()
def first(): state.fault = OSError()  # race
def second():
    try: raise KeyError from state.fault  # race
    except KeyError: pass
## a decorator keeps what it is given
handlers = []
def handler(function):
    handlers.append(function)  # race
    return function
def first():
    @handler
    def one(): pass
def second():
    for one in handlers: pass  # race
## an annotation of a class looks at a table
kinds = {"a": int}
def first(): kinds["a"] = str  # race
def second():
    class Row:
        x: kinds["a"]  # race
        y: kinds["a"] = 1  # race
## a pattern looks at a property
class Point:
    __match_args__ = ("x",)
    def __init__(self): self._x = 1
    @property
    def x(self): return self._x  # race
point = Point()
def first(): point._x = 2  # race
def second():
    match point:
        case Point(1): pass
## a pattern looks at fields that its class has by inheritance
class Base:
    __match_args__ = ("x", "y")
class Point(Base):
    __slots__ = ("x", "y")
point = Point()
point.x, point.y = 1, [2]
def first(): point.y.append(3)  # race
def second():
    match point:
        case Point(1, [2, *_]): pass  # race
        case Base(x=1, y=[_, three]): pass
## a walrus within a comprehension binds a variable of the module
last = 0
def first():
    global last
    [last := one for one in (1, 2)]  # race
def second(): last  # race
## a walrus within an argument binds a captured variable
def make():
    last = 0
    def bind():
        nonlocal last
        print(end="" if (last := 1) else "")  # race
    return bind, lambda: last  # race
bind, look = make()
def first(): bind()
def second(): look()
## targets of a row are fields of one another
class Node: pass
node = Node()
node.next = Node()
node.next.value = 1
def first(): node.next.value, node.next.next = 2, node  # race
def second(): node.next.value  # race
## an import within a function binds a field and a variable
tools = None
def first():
    global tools
    import os.path as tools  # race
def second(): tools  # race
## a nested function of a method changes what the object has
class Shop:
    def __init__(self): self.left = 1
    def sell(self):
        def take(count): self.left -= count  # race
        take(1)
shop = Shop()
def first(): shop.sell()
def second(): shop.left  # race
## a lambda stores by its name
class Shop: pass
shop = Shop()
shop.left = 1
change = lambda value: setattr(shop, "left", value)  # race
def first(): change(2)
def second(): shop.left  # race
## a finally clause changes what is returned
class Shop: pass
shop = Shop()
shop.left = 1
def sell():
    try: return shop.left  # race
    finally: shop.left -= 1  # race
def first(): sell()
def second(): sell()
## a slice is assigned with a step
rows = [1, 2, 3, 4]
def first(): rows[::2] = [5, 6]  # race
def second(): rows[0]  # race
## variables of other scopes have one name
level = 1
def first():
    level = 2
    [level for level in (1, 2)]
    class Inner:
        level = 3
def second(): return level
## each goes through a list that nobody changes
rows = [1, 2, 3]
def first():
    for one in rows: pass
    first, *rest = rows
def second():
    match rows:
        case [1, *rest]: pass
## two put a default of one key
table = {}
def first(): table.setdefault("a", 1)
def second(): table.setdefault("a", 2)
"""

STEPS = """
## a coroutine is stepped by hand
class Wait:
    def __await__(self):
        yield 1
        yield 2
async def steps(): await Wait()
coroutine = steps()
def first(): coroutine.send(None)  # race
def second(): coroutine.close()  # race
## an asynchronous generator is asked by two
async def count():
    for one in range(9): yield one
steps = count()
def run(awaitable):
    try: awaitable.send(None)
    except StopIteration: pass
def first(): run(anext(steps))  # race
def second():
    run(steps.asend(None))  # race
    run(steps.aclose())  # race
## two loops go through an asynchronous generator
async def count():
    for one in range(9): yield one
steps = count()
async def loop():
    async for one in steps:  # race
        if one > 2: break
def run(awaitable):
    try: awaitable.send(None)
    except StopIteration: pass
def first(): run(loop())
def second(): run(loop())
## a comprehension goes through an asynchronous generator
async def count():
    for one in range(9): yield one
steps = count()
async def all_of(): return [one async for one in steps]  # race
def run(awaitable):
    try: awaitable.send(None)
    except StopIteration: pass
def first(): run(all_of())
def second(): run(all_of())
## iterators of itertools go on
import itertools
pairs = [(1, 2), (3, 4)]
a, b, c = itertools.cycle([1]), itertools.chain([1], [2]), itertools.islice([1, 2, 3], 3)
d, e, f = itertools.accumulate([1, 2]), itertools.product([1], [2, 3]), itertools.permutations([1, 2])
g, h, i = itertools.combinations([1, 2, 3], 2), itertools.zip_longest([1], [2, 3]), itertools.pairwise([1, 2, 3])
j, k, l = itertools.takewhile(bool, [1, 2]), itertools.starmap(max, pairs), itertools.groupby([1, 2])
def first():
    next(a)  # race
    next(b)  # race
    next(c)  # race
    next(d)  # race
    next(e)  # race
    next(f)  # race
    next(g)  # race
    next(h)  # race
    next(i)  # race
    next(j)  # race
    next(k)  # race
    next(l)  # race
def second():
    next(a)  # race
    next(b)  # race
    next(c)  # race
    next(d)  # race
    next(e)  # race
    next(f)  # race
    next(g)  # race
    next(h)  # race
    next(i)  # race
    next(j)  # race
    next(k)  # race
    next(l)  # race
## a class of the program is an iterator
class Count:
    n = 0
    def __iter__(self): return self
    def __next__(self):
        self.n += 1  # race
        return self.n  # race
count = Count()
def first(): next(count)
def second():
    for one in count: break
## a generator that a method makes looks at a field step by step
class Rows:
    def __init__(self): self.rows = [1, 2]
    def __iter__(self):
        for one in self.rows: yield one  # race
rows = Rows()
def first(): rows.rows.append(3)  # race
def second(): list(rows)
## an asynchronous loop of each task has an iterator of its own
async def count():
    for one in range(9): yield one
async def loop():
    async for one in count(): pass
    return [one async for one in count()]
def run(awaitable):
    try: awaitable.send(None)
    except StopIteration: pass
def first(): run(loop())
def second(): run(loop())
## numbers are counted by one who gives each caller its own
import itertools
numbers, same = itertools.count(), itertools.repeat(1)
def first(): next(numbers), next(same)
def second(): next(numbers), next(same)
## each has a coroutine of its own
async def work(): return 1
def run(coroutine):
    try: coroutine.send(None)
    except StopIteration: pass
def first(): run(work())
def second(): run(work())
"""

COPIES = """
## the greatest of some dataclasses
from dataclasses import dataclass
@dataclass(order=True)
class Job:
    left: int = 1
jobs = [Job(1), Job(2)]
def first(): jobs[0].left = 5  # race
def second():
    max(jobs)  # race
    sorted(jobs)  # race
    min(jobs, default=None)  # race
## a dataclass is looked for among others
from dataclasses import dataclass
@dataclass
class Job:
    left: int = 1
jobs = [Job(1), Job(2)]
def first(): jobs[0].left = 5  # race
def second():
    Job(3) in jobs  # race
    jobs.count(Job(4))  # race
    Job(3) not in jobs  # race
## rows are sorted by what they have inside
rows = [[1], [2]]
def first(): rows[0].append(3)  # race
def second():
    sorted(rows)  # race
    rows.index([2])  # race
    [4] in rows  # race
## what is sorted by a key is not compared itself
from dataclasses import dataclass
@dataclass(order=True)
class Job:
    left: int = 1
    name: str = ""
jobs, rows = [Job(1), Job(2)], [[1], [2]]
def first():
    jobs[0].left = 5
    rows[0].append(3)
def second():
    max(jobs, key=lambda job: job.name)
    sorted(rows, key=id)
    None in rows
    rows.count(1)
## an object of the library pickles
import io, pickle
table, rows = {"a": 1}, {"k": [1]}
def first():
    table["b"] = 2  # race
    rows["k"].append(2)  # race
def second():
    pickle.Pickler(io.BytesIO()).dump(table)  # race
    pickler = pickle.Pickler(io.BytesIO())
    pickler.dump(rows)  # race
## an object of the library writes JSON
import json
table, encoder = {"a": 1}, json.JSONEncoder()
def first(): table["b"] = 2  # race
def second():
    encoder.encode(table)  # race
    list(encoder.iterencode([table]))  # race
## all members of an object
import inspect
class Point:
    def __init__(self): self.x = 1
point = Point()
def first(): point.x = 2  # race
def second():
    inspect.getmembers(point)  # race
    inspect.getattr_static(point, "x")  # race
## an object gives its own state to be pickled
import copy, pickle
class Shop:
    def __init__(self): self.rows = [1]
    def __getstate__(self): return {"rows": list(self.rows)}  # race
    def __copy__(self): return [*self.rows]  # race
shop = Shop()
def first(): shop.rows.append(2)  # race
def second(): pickle.dumps(shop), copy.copy(shop)
## a text by an object of the library
import string
class Point:
    def __init__(self): self.x = 1
point, formatter = Point(), string.Formatter()  # star Formatter
def first(): point.x = 2
def second():
    formatter.format("{0.x}", point)
    string.Formatter().format("{p.x}", p=point)  # star Formatter
## what is written as JSON by each is its own
import io, json, pickle
def dump():
    table = {"a": 1}
    json.JSONEncoder().encode(table)
    pickle.Pickler(io.BytesIO()).dump(table)
    "a".encode("utf-8")
def first(): dump()
def second(): dump()
## values of pairs whose keys differ are not compared
table = {"a": [1], "b": [2]}
def first(): table["a"].append(2)
def second(): sorted(table.items()), max(table), min(table.items())
## one row is compared with none
rows = [[1]]
def first(): rows[0].append(2)
def second(): max(rows), sorted(rows), min(rows)
## a look ends at what is found
from dataclasses import dataclass
@dataclass
class Job:
    left: int = 1
jobs = [Job(1), Job(2)]
one, rows = jobs[0], [[1], [2]]
def first():
    jobs[1].left = 5
    rows[1].append(3)
def second():
    one in jobs, jobs.index(one), [1] in rows
## a class makes the list that it is
class Rows(list):
    def __init__(self):
        list.__init__(self, [1])
        self.size = len(self)
def first(): Rows().append(2)
def second(): Rows().clear()
## fields of each one's own by computed names
class Point: pass
def work():
    point = Point()
    for name in ("x" + "y", "z"): setattr(point, name, 1)
    vars(point)["w"] = 2
    return point.xy
def first(): work()
def second(): work()
## a chain and a message that both read
from collections import ChainMap
import email.message
chain, message = ChainMap({}, {"a": 1}), email.message.Message()
message["a"] = "b"
def look(): chain["a"], list(chain), message["a"], len(message), "a" in message, message.get("a"), [*message.keys()]
def first(): look()
def second(): look()
## two leave something to be done at the end of a block
import contextlib
stack = contextlib.ExitStack()
def first(): stack.callback(print, end="")
def second(): stack.callback(print, end="")
## an annotation within a function is not looked at
kinds = {"a": int}
def first(): kinds["a"] = str
def second():
    x: kinds["a"] = 1
    return x
## what the process has is only looked at
import sys, tempfile
def first(): sys.stdout.flush(), tempfile.gettempdir()
def second(): sys.stdout.flush(), tempfile.gettempdir()
## two sort one list, and look through it
rows = [[1], [2]]
def first(): sorted(rows), max(rows), [1] in rows
def second(): sorted(rows), min(rows), rows.index([2])
"""

LIBRARY = """
## a value that is computed once is dropped
import functools
class Table:
    @functools.cached_property
    def total(self): return 3
table = Table()
table.total
def first(): del table.total  # race
def second(): table.total  # race
## a cache gives one list to all
import functools
@functools.lru_cache
def rows(): return [1]
rows()
def first(): rows().append(2)  # race
def second(): len(rows())  # race
## a variable of a context has one default for all
import contextvars
rows = contextvars.ContextVar("rows", default=[1])
def first(): rows.get().append(2)  # race
def second(): len(rows.get())  # race
## what each thread has leads to one list
import threading
shared = [1]
class Own(threading.local):
    def __init__(self): self.rows = shared
own = Own()
def first(): own.rows.append(2)  # race
def second(): len(own.rows)  # race
## a deque that is full lets go of its other end
from collections import deque
line = deque([1, 2], maxlen=2)
def first(): line.append(3)  # race
def second(): line[0]  # race
## the order of a table
from collections import OrderedDict
table = OrderedDict(a=1, b=2)
def first(): table.move_to_end("a")  # race
def second(): next(iter(table))  # race
## a counter counts
from collections import Counter
counts = Counter("ab")
def first(): counts["a"] += 1  # race
def second(): counts.most_common(1), counts.total()  # race
## the maps of a chain
from collections import ChainMap
chain = ChainMap({"a": 1})
def first(): chain.maps.insert(0, {})  # race
def second():
    chain["a"]  # race
    chain.get("b")  # race
    list(chain)  # race
## a list is kept sorted by a key
import bisect
rows = [1, -3]
def first(): bisect.insort(rows, 2, key=abs)  # race
def second(): rows[0]  # race
## a text in memory is printed to
import io
buffer = io.StringIO()
def first(): print("a", file=buffer)  # race
def second(): buffer.getvalue()  # race
## what is left to be done at the end of a block
import contextlib
stack, others = contextlib.ExitStack(), contextlib.ExitStack()
def first():
    stack.callback(print, end="")  # race
    others.enter_context(contextlib.nullcontext())  # race
    others.push(contextlib.nullcontext())  # race
def second():
    stack.close()  # race
    others.pop_all()  # race
## a generator of chance of its own
import random
chance = random.Random(1)
def first():
    chance.seed(2)  # race
def second():
    chance.random()  # race
    chance.choice([1])  # race
    chance.setstate(chance.getstate())  # race
## handlers and filters of a logger
import logging
log, handler = logging.Logger("constructs"), logging.NullHandler()
def first():
    log.handlers.append(handler)  # race
    log.propagate = False  # race
def second():
    list(log.handlers)  # race
    log.propagate  # race
## a weak reference calls when its object goes
import weakref
gone = []
class One: pass
def first():
    one = One()
    kept = weakref.ref(one, lambda _: gone.append(1))  # race
    del one
def second(): len(gone)  # race
## a function follows what a thread does
import sys
events = []
def trace(frame, event, argument):
    events.append(event)  # race
def work(): pass
def first():
    sys.settrace(trace)
    work()
    sys.settrace(None)
def second(): len(events)  # race
## the name of a thread
import threading
thread = threading.Thread()
def first(): thread.name = "a"  # race
def second(): thread.name  # race
## the text of an element
import xml.etree.ElementTree as tree
one = tree.Element("a")
def first():
    one.text = "b"  # race
    one.attrib["k"] = "v"  # race
def second():
    one.text  # race
    one.attrib.get("k")  # race
## the children of an element
import xml.etree.ElementTree as tree
one, other = tree.Element("a"), tree.Element("b")
def first(): one.append(other)  # star one
def second(): len(one)
## a field of a text in memory, by a view of it
import io
buffer = io.BytesIO(b"abc")
view = buffer.getbuffer()
def first(): view[0] = 1  # star memoryview
def second(): buffer.getvalue()
## a message of mail
import email.message
message = email.message.Message()
message["a"] = "b"
def first(): del message["a"]  # star message
def second(): message["a"]
## a section of settings
import configparser
settings = configparser.ConfigParser()
settings["shop"] = {"left": "1"}
shop = settings["shop"]
def first(): shop["left"] = "2"  # star shop
def second(): shop["left"]
## a function gets another way for a type
import functools
@functools.singledispatch
def show(one): return 1
def first(): show.register(int, repr)  # star register
def second(): show(1)
## a class is taken for one below another
import abc
class Shape(abc.ABC): pass
class Square: pass
def first(): Shape.register(Square)  # star register
def second(): isinstance(Square(), Shape)
## a class of the program registers by itself
class Registry:
    def __init__(self): self.rows = []
    def register(self, one): self.rows.append(one)  # race
registry = Registry()
def first(): registry.register(1)
def second(): len(registry.rows)  # race
## each has a stack, a generator of chance and an element of its own
import contextlib, random, xml.etree.ElementTree as tree, email.message
def work():
    with contextlib.ExitStack() as stack: stack.callback(print, end="")
    chance = random.Random(1)
    chance.seed(2), chance.random()
    one = tree.Element("a")
    one.text = "b"
    one.append(tree.Element("c"))
    message = email.message.Message()
    message["a"] = "b"
def first(): work()
def second(): work()
## a generator of chance that both draw from
import random
chance = random.Random(1)
def first(): chance.random(), chance.choice([1])
def second(): chance.randint(1, 2), chance.shuffle([1])
## a cache is emptied while it is asked
import functools
@functools.lru_cache
def kept(n): return n
def first(): kept.cache_clear()
def second(): kept(1)
## a variable of a context and of a thread
import contextvars, threading
rows, own = contextvars.ContextVar("rows", default=1), threading.local()
def first():
    rows.set(2)
    own.n = 1
def second():
    rows.get()
    own.n = 2
## both ends of a deque
from collections import deque
line = deque([1, 2, 3])
def first(): line.append(4)
def second(): line.popleft()
## a function has ways for types that nobody changes
import abc, functools
@functools.singledispatch
def show(one): return 1
@show.register
def _(one: int): return 2
class Shape(abc.ABC): pass
class Square: pass
Shape.register(Square)
def first(): show(1), isinstance(Square(), Shape)
def second(): show(1), isinstance(Square(), Shape)
"""

PROCESS = """
## what print writes to is another one
import sys
def first(): sys.stdout = sys.stdout  # race
def second(): print(end="")  # race
## what print writes to is set by its name
import sys
def first(): setattr(sys, "stdout", sys.stdout)  # race
def second(): print(end="")  # race
## the folder for files that do not last
import tempfile
tempfile.gettempdir()
def first(): tempfile.tempdir = "/tmp"  # race
def second(): tempfile.gettempdir()  # race
## the first day of a week
import calendar
def first(): calendar.setfirstweekday(0)  # race
def second(): calendar.monthcalendar(2026, 1)  # race
## the formats of archives
import shutil
def first(): shutil.register_archive_format("constructs", repr)  # race
def second(): shutil.get_archive_formats()  # race
## texts of other languages
import gettext
def first(): gettext.textdomain("constructs")  # race
def second(): gettext.gettext("a")  # race
## the log of the system
import syslog
def first(): syslog.openlog("constructs")  # race
def second(): syslog.closelog()  # race
## how libraries are loaded
import sys
def first(): sys.setdlopenflags(sys.getdlopenflags())  # race
def second(): sys.getdlopenflags()  # race
## the environment, by an update
import os
def first(): os.environ.update(CONSTRUCTS="1")  # race
def second(): os.environ.get("CONSTRUCTS")  # race
## the filters of warnings, as a list
import warnings
def first(): warnings.filters.insert(0, warnings.filters[0])  # race
def second(): list(warnings.filters)  # race
## of other tasks: a handler of a signal
import signal, time
hits = []
def handle(*_): hits.append(1)  # race
signal.signal(signal.SIGUSR2, handle)
def first():
    signal.raise_signal(signal.SIGUSR2)
    while not hits: time.sleep(0.001)  # race
def second(): len(hits)
## a printing that goes to a file of its own
import io, sys
def first(): print("a", file=io.StringIO())
def second(): print("a", file=io.StringIO())
"""

HANDED = """
## a function of operator calls what it is given
import operator
items = [1]
def first(): operator.call(items.append, 2)  # race
def second(): len(items)  # race
## a step calls what it is given by its name
import itertools
items = [1]
def first(): list(itertools.accumulate([0, 2], func=items.insert))  # race
def second(): len(items)  # race
## a pool begins its threads with it
from concurrent.futures import ThreadPoolExecutor
items = []
def first():
    with ThreadPoolExecutor(1, initializer=items.append, initargs=(1,)) as pool: pool.submit(int).result()  # star append as it is handed on
def second(): len(items)
## a module of the library is given it
import colorsys
items = []
def first(): colorsys.constructs = items.append  # star append as it is handed on
def second(): len(items)
## an object of the library is given it
import threading
items = []
thread = threading.Thread()
def first(): thread.run = items.clear  # star clear as it is handed on
def second(): len(items)
## a builtin is stored by its name
import builtins
def first(): setattr(builtins, "constructs", 1)  # star constructs
def second(): int("1")
## the names of methods to be replaced are computed
class Base:
    def shut(self): return 1
one = Base()
def free(self): return 2
def first():
    for name in ("sh" + "ut",): setattr(Base, name, free)  # race; star shut as it is stored
def second(): one.shut()  # race
## an object of the program is given it, and calls it
items = [1]
class Button:
    def press(self): self.pressed()  # race
button = Button()
def first():
    button.pressed = items.clear
    button.press()
def second(): len(items)  # race
## a function of the program is given it
items = [1]
def call(function): function(2)  # race
def first(): call(items.append)
def second(): len(items)  # race
## a table of the program has it
items = [1]
ways = {"add": items.append, "size": items.__len__}
def first(): ways["add"](2)  # race
def second(): ways["size"]()  # race
## a method of the library is handed to itself
items, table = [1], {"a": 1}
def first(): list(map(table.__setitem__, ["a"], [2]))  # race
def second(): list(map(table.get, ["a"]))  # race
## functions that are handed on look at what both only read
items = [1, 2]
def first(): list(map(items.index, [1])), sorted([1], key=items.count)
def second(): list(map(items.__getitem__, [0]))
"""

CHAPTERS = {
    "objects and classes": OBJECTS, "statements": STATEMENTS, "iterators and coroutines": STEPS,
    "copies and comparisons": COPIES, "the library": LIBRARY, "what the process has once": PROCESS,
    "what is handed on": HANDED, **further_constructs.CHAPTERS,
}


def constructs() -> Iterator[Construct]:
    for chapter, text in CHAPTERS.items():
        for part in text.split("\n## ")[1:]:
            name, _, source = part.partition("\n")
            yield Construct(chapter, name, textwrap.dedent(source).rstrip("\n") + "\n")


class Told(NamedTuple):
    """What a run has told of all programs."""

    wrong: list[str]
    """Those that have another answer than is due."""
    false: list[str]
    """Those of which a race was told under a lock."""
    faults: list[str]
    """Those that the program itself could not do."""
    counts: dict[str, int]
    """How many there are of each kind of answer."""


def place_in(place: str) -> tuple[int, int] | None:
    """The number of the program, and the line, of a place in one of them."""
    found = _NAME.match(os.path.basename(place))
    return None if found is None else (int(found[1]), int(found[2]))


def lines_told(races: Iterable[Race]) -> dict[int, set[int]]:
    """Of each program the lines of these races, if both sides are its own."""
    found: dict[int, set[int]] = {}
    for race in races:
        sides = [place_in(side.place) for side in race.sides]
        one, other = sides
        if one is not None and other is not None and one[0] == other[0]:
            found.setdefault(one[0], set()).update((one[1], other[1]))
    return found


def _stars(races: Races) -> dict[int, set[tuple[int, str]]]:
    """Of each program the lines that are named, with their words."""
    found: dict[int, set[tuple[int, str]]] = {}
    for one in dict.fromkeys((*passed_over.found, *races.passed_over)):
        place = place_in(one.place)
        if place is not None:
            found.setdefault(place[0], set()).add((place[1], one.what.partition(", in no order")[0]))
    passed_over.found.clear()
    return found


def told_of(chosen: list[Construct]) -> Told:
    """Runs programs, all in this process."""
    faults: dict[str, str] = {}
    pairs: list[Pair] = chosen  # type: ignore[assignment]  # A program has its text as a pair has.
    passed_over.found.clear()
    _, plain = races_of(pairs, "", faults)
    lines, stars = lines_told([*plain.races, *plain.possible]), _stars(plain)
    locked = races_of(pairs, "lock", faults)[1]
    under_lock = lines_told([*locked.races, *locked.possible])
    passed_over.found.clear()
    answers = {
        number: Answer(frozenset(lines.get(number, ())), frozenset(stars.get(number, ()))) for number in range(len(chosen))
    }
    return Told(
        [f"{one.name}: {answers[number]}, not {one.due}" for number, one in enumerate(chosen) if answers[number] != one.due],
        [one.name for number, one in enumerate(chosen) if under_lock.get(number) and not one.name.startswith(OWN_TASKS)],
        [f"{chosen[int(name.removeprefix('pair_'))].name}: {fault}" for name, fault in faults.items()],
        {kind: sum(one.kind == kind for one in chosen) for kind in (TOLD, STARRED, CLEAN)},
    )


if __name__ == "__main__":
    words = sys.argv[1:]
    some = [one for one in constructs() if not words or any(word in one.name for word in words)]
    print("", json.dumps(told_of(some)._asdict(), indent=1 if words else None), sep="\n")
