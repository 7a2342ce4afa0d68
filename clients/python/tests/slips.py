"""What a program can do to an object, a class, a module, a frame and what the interpreter and the library keep: whether
two threads that do so at once are told.

The rows go through the chapters of the language's reference on the data model, and through what the library keeps for a
whole process. `python3 -m tests.slips` runs all, and prints the table. A row that is seen is told as a race, and is not
with a lock around both. A row that is starred is named in the last line. What is no thing is neither.
"""

from __future__ import annotations

import json
import re
import sys
import textwrap
from collections import Counter
from collections.abc import Iterable, Iterator
from typing import NamedTuple

from itc_trace.watch import passed_over
from itc_trace.watch.process_state import CHANGES, LOOKS

from .pairs import Pair, races_of

SEEN, STARRED, NO_THING = ANSWERS = "seen", "starred", "no thing"


class Row(NamedTuple):
    """One thing that two threads do, and the answer that is due."""

    chapter: str
    setup: str
    one: str
    other: str
    answer: str


class Chapter(NamedTuple):
    """Rows with the same preparation. Each line of `rows` has the answer, and what either thread does, with `|` between."""

    name: str
    setup: str
    rows: str


CLASSES = """
class Base:
    level = 1
    on = None
    def handle(self): return 1
    def spare(self): return 2
    @property
    def size(self): return 1
    @staticmethod
    def make(): return 1
    @classmethod
    def build(cls): return 1
    def __len__(self): return 1
    def look(self):
        if self.on: self.on()
class Lower(Base): pass
class Idle: pass
class Busy(Idle): pass
class Slots:
    __slots__ = ("left",)
    def __init__(self): self.left = 1
def free(self=None): return 3
one, low, idle, slots = Base(), Lower(), Idle(), Slots()
"""
DATA = """
import enum, dataclasses
from dataclasses import dataclass, field
@dataclass
class Point:
    x: int = 1
    y: int = 2
@dataclass(unsafe_hash=True)
class Hashed:
    x: int = 1
    y: int = field(default=2, compare=False)
point, hashed = Point(), Hashed()
"""
FUNCTIONS = """
import builtins, code, functools, timeit, types
def outer():
    left = 1
    def inner(): return left
    def change():
        nonlocal left
        left = 2
    return inner, change
inner, change = outer()
count = 1
def work(a=1, *, b=2): return count
def other(): return 2
def steps():
    yield 1
    yield 2
@functools.lru_cache(maxsize=None)
def kept(n): return n
generator = steps()
"""
RAISED = """
import contextlib
fault, cause = ValueError(1), OSError(2, 'a')
class Holder: pass
holder = Holder()
holder.fault = fault
faults = [fault]
def fail_by_local():
    one = holder.fault
    with contextlib.suppress(ValueError): raise one from cause
def fail_from_list():
    for one in faults:
        with contextlib.suppress(ValueError): raise one
def fail_where_taken():
    with contextlib.suppress(ValueError):
        if one := faults[0]: raise one
def fail_made():
    one = ValueError(2)
    with contextlib.suppress(ValueError): raise one from cause
def fail(one, because):
    with contextlib.suppress(ValueError): raise one from because
def fail_by_field(one):
    with contextlib.suppress(ValueError): raise one.fault from cause
def fail_by_variable():
    with contextlib.suppress(ValueError): raise fault from cause
def fail_alone(one):
    with contextlib.suppress(ValueError): raise one
def fail_within(one):
    with contextlib.suppress(ValueError):
        try: 1 / 0
        except ZeroDivisionError: raise one
def fail_new(because):
    with contextlib.suppress(ValueError):
        new = ValueError(2)
        raise new from because
"""
LIBRARY = """
import asyncio, codecs, contextlib, copyreg, csv, decimal, faulthandler, gc, importlib, io, linecache, locale, logging
import logging.config, mimetypes, multiprocessing, os, random, re, resource, signal, socket, sqlite3, sys, threading
import time, tracemalloc, urllib.request, warnings, weakref, xml.etree.ElementTree as tree
from unittest import mock
import os.path
log = logging.getLogger("slips")
handler = logging.NullHandler()
context = decimal.Context()
here = os.getcwd()
"""
HANDED = """
import argparse, collections, contextlib, csv, functools, io, itertools, re, sched, string, threading, types, weakref
items, table, marks = [1], {"a": 1}, {1}
many, counted = collections.deque([1]), collections.Counter("a")
expression = re.compile("x")
class Plain:
    left = 1
plain = Plain()
"""
OF_CLASSES = """
import threading, typing
class Mine(threading.local):
    count = 0
    table = {}
    def look(self): return self.count
    @classmethod
    def add(cls): cls.count += 1
class Begun(threading.local):
    count = hidden = 0
    def __init__(self): self.own = self.hidden = 1
class Lower(Begun): pass
mine, begun, lower = Mine(), Begun(), Lower()
T = typing.TypeVar("T")
class Box(typing.Generic[T]):
    count = 0
    def get(self): return self.count
class Sub(Box[int]): pass
alias = Box[int]
box, sub = Box(), Sub()
"""
SETTINGS = """
import argparse, calendar, cmd, configparser, csv, decimal, difflib, email.message, email.generator, gettext, html.parser, http.client, io
import json, logging, mimetypes, optparse, pprint, reprlib, sched, shlex, smtplib, socketserver, sqlite3, ssl, string, tarfile, textwrap
import urllib.request, zipfile, ftplib, imaplib, fileinput, mailbox, time
import xml.etree.ElementTree as tree
import xml.etree.ElementTree
from decimal import Decimal
wrapper = textwrap.TextWrapper()
context = decimal.Context()
parser = argparse.ArgumentParser(add_help=False)
month = calendar.TextCalendar()
shell = cmd.Cmd()
config = configparser.ConfigParser()
sniffer = csv.Sniffer()
differ = difflib.Differ()
letter = email.message.Message()
generator = email.generator.Generator(io.StringIO())
reader = html.parser.HTMLParser()
connection = http.client.HTTPConnection("localhost")
encoder, decoder = json.JSONEncoder(), json.JSONDecoder()
formatter, handler = logging.Formatter(), logging.NullHandler()
record = logging.makeLogRecord({"msg": "a"})
types_of = mimetypes.MimeTypes()
options = optparse.OptionParser()
short = reprlib.Repr()
scheduler = sched.scheduler()
lexer = shlex.shlex("a b c d e f g")
base = sqlite3.connect(":memory:", check_same_thread=False)
cursor = base.cursor()
secure = ssl.SSLContext(ssl.PROTOCOL_TLS_CLIENT)
template = string.Template("a")
request = urllib.request.Request("http://localhost")
opener = urllib.request.build_opener()
archive = zipfile.ZipFile(io.BytesIO(), "w")
info = zipfile.ZipInfo("a")
tar = tarfile.open(fileobj=io.BytesIO(), mode="w")
element = tree.Element("a")
class Mine(textwrap.TextWrapper):
    def fill(self, text): return text
mine = Mine()
class Box:
    width = 1
    def wrap(self, text): return text
box = Box()
def width(n): wrapper.width = n
"""
UPDATED = """
count, other = 1, 2
table, shared = {"count": 5}, {"a": 1, "b": 2}
class One: pass
one = One()
one.left = one.right = 1
fields, named = one.__dict__, globals()
def update(fields, more): fields |= more
def write_other():
    global other
    other = 3
def write_count():
    global count
    count = 3
"""
PARTIAL = """
import functools, threading
def work(*words, **named): return len(words)
part = functools.partial(work, 1, n=2)
outer = functools.partial(part, 2)
class Holder: pass
holder = Holder()
holder.part = part
"""
GONE_THROUGH = """
import functools, itertools, operator, threading
from collections import Counter, UserDict, UserList, deque
one, two = Counter(a=1), Counter(b=2)
rows, more = [1], [2]
table, other = {"a": 1}, {"a": 2}
marks, line = {1}, deque([1])
ones, tables, sets, lines = [one], [table], [marks], [line]
user, wrapped = UserDict(a=1), UserList([1])
class Sized:
    def __init__(self, left): self.left = left
    def __add__(self, other): return Sized(self.left + other.left)
    def __radd__(self, other): return self
    def __lt__(self, other): return self.left < other.left
    def __eq__(self, other): return self.left == other.left
    def __hash__(self): return hash(self.left)
    def __len__(self): return self.left
    def __index__(self): return self.left
    def __iter__(self): return iter([self.left])
    def __format__(self, form): return str(self.left)
sized, larger = Sized(1), Sized(2)
"""

BYTES = """
import base64, hashlib, hmac, re, secrets, socket, struct, tempfile, zlib
from array import array
data, numbers, word = bytearray(b"123"), array("i", [1, 2]), b"ab"
pattern, file = re.compile(b"1"), tempfile.TemporaryFile()
here, there = socket.socketpair()
class Own:
    def send(self, one): pass
own = Own()
"""
ASKED = """
import argparse, configparser, graphlib, heapq, http.cookies, itertools, operator, reprlib, statistics
left, table = [1, 4], {"a": 1}
rows = [left, [2]]
space, cookie, graph = argparse.Namespace(a=1), http.cookies.SimpleCookie(), graphlib.TopologicalSorter()
def take(*words, **named): return words, named
"""
OF_PARTIAL = """
import functools
left = [1]
class Part(functools.partial): pass
def take(n): return n
part, counting = Part(take, n=1), Part(len, left)
"""

CHAPTERS = (
    Chapter("objects and values", CLASSES, """
seen | one.left = 1 | hasattr(one, "left")
seen | one.left = 1 | getattr(one, "left", None)
seen | setattr(one, "left", 2) | getattr(one, "left", None)
seen | vars(one)["left"] = 2 | getattr(one, "left", None)
seen | one.__dict__["left"] = 2 | getattr(one, "left", None)
seen | one.__dict__.update(left=2) | getattr(one, "left", None)
seen | object.__setattr__(one, "left", 3) | getattr(one, "left", None)
seen | slots.left = 2 | slots.left
seen | slots.left += 2 | slots.left
seen | one.level = 2 | one.level
seen | one.level += 2 | one.level
starred | idle.__class__ = Busy | isinstance(idle, Busy)
starred | idle.__dict__ = {} | idle.__dict__
starred | Slots.left.__set__(slots, 2) | slots.left
starred | Slots.left.__delete__(slots) | getattr(slots, "left", 1)
no thing | id(one) | id(one)
no thing | one is low | type(one)
no thing | isinstance(one, Base) | issubclass(Lower, Base)
"""),
    Chapter("classes", CLASSES, """
seen | Base.handle = free | one.handle()
seen | Base.handle = free | low.handle()
seen | Base.handle = free | low.handle
seen | Base.handle = free | getattr(one, "handle")
seen | Base.handle = free | Base.handle(one)
seen | Lower.handle = free | low.handle()
seen | del Base.spare | getattr(one, "spare", None)
seen | del Base.spare | hasattr(low, "spare")
seen | setattr(Base, "handle", free) | one.handle()
seen | type(one).handle = free | one.handle()
seen | one.__class__.handle = free | one.handle()
seen | one.handle = one.spare | one.handle()
seen | one.handle = one.spare | one.handle
seen | setattr(one, "handle", one.spare) | one.handle()
seen | one.handle = free | one.handle = one.spare
seen | Base.size = property(free) | one.size
seen | Base.size = property(free) | low.size
seen | Base.size = 3 | getattr(one, "size")
seen | Base.make = staticmethod(free) | one.make()
seen | Base.make = staticmethod(free) | Base.make()
seen | Base.build = classmethod(free) | Base.build()
seen | Base.on = free | one.look()
seen | Base.on = free | low.look()
seen | Base.on = free | low.on
seen | Lower.on = free | low.on
seen | Lower.on = free | Lower.on
seen | Base.new = 1 | getattr(one, "new", None)
seen | Base.new = 1 | hasattr(low, "new")
seen | Base.new = 1 | getattr(Base, "new", None)
seen | Base.level = 2 | Base.level
seen | Base.level += 2 | low.level
seen | Base.level = 2 | Lower.level += 1
seen | Base.__doc__ = "a" | Base.__doc__
seen | Base.__qualname__ = "a" | Base.__qualname__
seen | Base.__name__ = "a" | Base.__name__
starred | Base.__len__ = free | len(one)
starred | Base.__call__ = free | callable(one)
starred | Base.__bool__ = free | bool(one)
starred | Base.__eq__ = free | one == low
starred | Base.__getattr__ = free | getattr(one, "none", 1)
starred | Base.__iter__ = free | hasattr(one, "__iter__")
starred | setattr(Base, "__len__", free) | len(one)
starred | Lower.__bases__ = (Base,) | low.level
no thing | Base.__mro__ | Lower.__mro__
no thing | Base() | Lower()
no thing | one.handle() | one.handle()
"""),
    Chapter("dataclasses and members", DATA, """
seen | point.x = 2 | point.x
seen | hashed.x = 2 | hash(hashed)
seen | point.__init__(3) | point.x
seen | point.__init__(x=3) | point == Point()
seen | hashed.__init__(3) | hash(hashed)
seen | point.x = 2 | dataclasses.replace(point)
no thing | hashed.y = 2 | hash(hashed)
no thing | hash(hashed) | hash(hashed)
"""),
    Chapter("functions and cells", FUNCTIONS, """
seen | change() | inner()
seen | work.calls = 1 | getattr(work, "calls", 0)
seen | work.__doc__ = "a" | work.__doc__
seen | work.__name__ = "a" | work.__name__
seen | work.__qualname__ = "a" | work.__qualname__
seen | work.__annotations__ = {} | work.__annotations__
seen | work.__wrapped__ = other | getattr(work, "__wrapped__", None)
seen | globals()["count"] = 2 | globals()["count"]
seen | next(generator) | next(generator)
starred | inner.__closure__[0].cell_contents = 2 | inner()
starred | inner.__closure__[0].cell_contents | change()
starred | work.__globals__["count"] = 2 | work()
starred | work.__defaults__ = (2,) | work()
starred | work.__kwdefaults__ = {"b": 3} | work()
starred | work.__code__ = other.__code__ | work()
starred | setattr(work, "__code__", other.__code__) | work()
starred | exec("count = 2", globals()) | work()
starred | eval("work()") | work()
starred | run = exec | work()
starred | list(map(eval, ["1"])) | work()
starred | builtins.exec("count = 2") | work()
starred | getattr(builtins, "exec") | work()
starred | code.InteractiveInterpreter({}).runsource("1") | work()
starred | timeit.timeit("1", number=1) | work()
starred | types.FunctionType(work.__code__, {"count": 1})(1, b=2) | work()
starred | type(work)(work.__code__, {"count": 1})(1, b=2) | work()
no thing | types.FunctionType(work.__code__, globals())(1, b=2) | work()
no thing | timeit.timeit(lambda: 1, number=1) | work()
no thing | work() | work()
no thing | work.__module__ | work.__module__
"""),
    Chapter("exceptions", RAISED, """
seen | fail(fault, cause) | fail(fault, cause)
seen | fail(fault, cause) | fault.__cause__
seen | fail(fault, cause) | fault.__suppress_context__
seen | fail(fault, None) | fault.__cause__
seen | fail_by_field(holder) | fault.__cause__
seen | fail_by_variable() | fault.__cause__
seen | fail_by_variable() | fault.__cause__ = None
seen | fail_alone(fault) | fault.__traceback__
seen | fail_by_local() | fault.__cause__
seen | fail_by_local() | fail_by_local()
seen | fail_from_list() | fault.__traceback__
seen | fail_where_taken() | fault.__traceback__
no thing | fail_made() | fail_made()
seen | fail_within(fault) | fault.__context__
no thing | fail_alone(fault) | fault.__context__
no thing | fail_alone(fault) | fault.__cause__
no thing | fail(ValueError, cause) | fail(ValueError, cause)
no thing | fail_new(cause) | fail_new(cause)
no thing | fail(fault, cause) | cause.__cause__
seen | fault.args = (2,) | fault.args
seen | fault.args = (2,) | str(fault)
seen | fault.args = (2,) | f"{fault!r}"
seen | fault.args += (2,) | fault.args
seen | fault.add_note("a") | getattr(fault, "__notes__", None)
seen | fault.add_note("a") | fault.add_note("b")
seen | fault.with_traceback(None) | fault.__traceback__
seen | fault.__cause__ = cause | fault.__cause__
seen | fault.__context__ = cause | fault.__context__
seen | fault.__traceback__ = None | fault.__traceback__
seen | fault.left = 1 | getattr(fault, "left", 0)
seen | cause.errno = 3 | cause.errno
seen | cause.filename = "a" | cause.filename
no thing | str(fault) | repr(fault)
"""),
    Chapter("frames and code", "import inspect, sys\ncount = 1\ndef work(): return count", """
starred | sys._getframe().f_globals["count"] = 2 | work()
starred | sys._getframe().f_locals | work()
starred | inspect.currentframe().f_globals | work()
starred | sys._getframe().f_builtins | work()
starred | __builtins__ and sys._getframe().f_builtins.get("len") | work()
no thing | sys._getframe().f_lineno | work()
no thing | work.__code__.co_name | work()
"""),
    Chapter("modules", "import sys, builtins, importlib, types\nmade = types.ModuleType('made')\nmade.left = 1", """
seen | made.left = 2 | made.left
seen | del made.left | getattr(made, "left", 1)
seen | vars(made)["left"] = 2 | made.left
seen | setattr(made, "left", 3) | made.left
seen | sys.modules["made"] = made | sys.modules.get("made")
seen | sys.path.append("") | list(sys.path)
starred | builtins.left = 1 | len([])
starred | importlib.reload(importlib) | made.left
no thing | import json | import json
"""),
    Chapter("what the library keeps", LIBRARY, """
seen | os.chdir(here) | os.getcwd()
seen | os.chdir(here) | os.chdir(here)
seen | os.chdir(here) | os.path.abspath("a")
seen | os.fchdir(os.open(here, 0)) | os.getcwd()
seen | os.umask(0o22) | os.umask(0o22)
seen | os.nice(0) | os.getpriority(0, 0)
seen | os.environ["SLIPS"] = "1" | os.environ.get("SLIPS")
seen | with contextlib.redirect_stdout(sys.stdout): pass | print(end="")
seen | with contextlib.redirect_stdout(sys.stdout): pass | with contextlib.redirect_stdout(sys.stdout): pass
seen | with contextlib.redirect_stderr(sys.stderr): pass | with contextlib.redirect_stderr(sys.stderr): pass
seen | with contextlib.chdir(here): pass | os.getcwd()
seen | with warnings.catch_warnings(): pass | warnings.simplefilter("ignore")
seen | warnings.filterwarnings("ignore") | warnings.warn("a")
seen | warnings.resetwarnings() | with warnings.catch_warnings(): pass
seen | log.setLevel(10) | log.isEnabledFor(10)
seen | log.setLevel(10) | log.debug("a")
seen | log.setLevel(10) | log.info("a")
seen | log.setLevel(10) | log.level
seen | handler.setLevel(10) | handler.level
seen | logging.disable(0) | logging.disable(0)
seen | logging.basicConfig(handlers=[handler]) | logging.basicConfig(handlers=[handler])
seen | logging.captureWarnings(False) | warnings.simplefilter("ignore")
seen | locale.setlocale(locale.LC_ALL, "C") | locale.setlocale(locale.LC_ALL)
seen | locale.setlocale(locale.LC_ALL, "C") | locale.localeconv()
seen | signal.getsignal(2) | try: signal.signal(2, signal.default_int_handler)\\nexcept ValueError: pass
seen | signal.alarm(0) | signal.getitimer(signal.ITIMER_REAL)
seen | random.seed(1) | random.random()
seen | random.seed(1) | random.choice([1])
seen | random.seed(1) | random.shuffle([1])
seen | random.setstate(random.getstate()) | random.randint(1, 2)
seen | context.prec = 5 | context.prec
seen | context.rounding = decimal.ROUND_UP | context.rounding
seen | socket.setdefaulttimeout(None) | socket.getdefaulttimeout()
seen | socket.setdefaulttimeout(None) | socket.socket().close()
seen | sys.setrecursionlimit(sys.getrecursionlimit()) | sys.getrecursionlimit()
seen | sys.setswitchinterval(0.005) | sys.getswitchinterval()
seen | threading.stack_size(0) | threading.stack_size(0)
seen | gc.enable() | gc.isenabled()
seen | gc.set_threshold(700, 10, 10) | gc.get_threshold()
seen | time.tzset() | time.localtime()
seen | time.tzset() | time.strftime("%H")
seen | resource.setrlimit(resource.RLIMIT_CORE, resource.getrlimit(resource.RLIMIT_CORE)) | resource.getrlimit(resource.RLIMIT_CORE)
seen | csv.register_dialect("slips") | csv.get_dialect("excel")
seen | csv.field_size_limit(131072) | csv.field_size_limit(131072)
seen | mimetypes.add_type("a/b", ".slips") | mimetypes.guess_type("a.slips")
seen | codecs.register(lambda name: None) | codecs.lookup("utf-8")
seen | copyreg.pickle(set, set) | copyreg.pickle(set, set)
seen | tracemalloc.stop() | tracemalloc.is_tracing()
seen | linecache.clearcache() | linecache.getline("a", 1)
seen | faulthandler.disable() | faulthandler.is_enabled()
seen | re.purge() | re.purge()
seen | importlib.invalidate_caches() | importlib.invalidate_caches()
seen | tree.register_namespace("slips", "slips") | tree.tostring(tree.Element("a"))
seen | sqlite3.register_adapter(set, str) | sqlite3.register_adapter(set, str)
seen | urllib.request.install_opener(None) | urllib.request.install_opener(None)
seen | logging.raiseExceptions = True | logging.raiseExceptions
seen | socket.slips = 1 | getattr(socket, "slips", 1)
seen | multiprocessing.set_start_method("fork", force=True) | multiprocessing.get_start_method()
starred | with mock.patch("os.nice"): pass | os.getpid()
starred | with mock.patch.object(os, "nice"): pass | os.getpid()
no thing | os.getcwd() | os.getcwd()
no thing | random.random() | random.random()
no thing | warnings.warn("a") | warnings.warn("a")
no thing | print(end="") | print(end="")
no thing | log.debug("a") | log.debug("a")
no thing | time.time() | time.monotonic()
"""),
    Chapter("methods that are handed on", HANDED, """
seen | list(map(items.append, [1])) | len(items)
seen | list(itertools.starmap(setattr, [(plain, "left", 2)])) | plain.left
seen | list(itertools.starmap(items.insert, [(0, 2)])) | len(items)
seen | list(filter(items.append, [1])) | len(items)
seen | functools.reduce(lambda a, b: items.append(b), [1, 2]) | len(items)
seen | functools.partial(items.append, 2)() | len(items)
seen | with contextlib.ExitStack() as stack: stack.callback(items.append, 1) | len(items)
seen | threading.Timer(0, items.append, (1,)).run() | len(items)
starred | threading.Barrier(1, action=items.clear).wait() | len(items)
starred | staticmethod(items.append) | len(items)
starred | staticmethod(items.sort) | len(items)
starred | staticmethod(items.__delitem__) | len(items)
starred | property(many.rotate) | len(many)
starred | classmethod(counted.subtract) | counted["a"]
starred | property(items.pop) | len(items)
starred | re.sub("y", items.append, "x") | len(items)
starred | expression.sub(items.append, "y") | len(items)
seen | types.SimpleNamespace(run=items.append).run(1) | len(items)
starred | sched.scheduler().enter(9, 1, items.append) | len(items)
starred | argparse.ArgumentParser().add_argument("a", type=items.append) | len(items)
starred | functools.lru_cache(items.append) | len(items)
starred | functools.cmp_to_key(items.remove) | len(items)
no thing | items.append | items.append
"""),
    Chapter("what hands attributes on to a class", OF_CLASSES, """
seen | Mine.count = 2 | Mine.count
seen | Mine.count = 2 | mine.count
seen | Mine.count = 2 | mine.look()
seen | Mine.count = 2 | mine.count += 1
seen | Mine.count = 2 | Mine().count
seen | Mine.count = 2 | getattr(mine, "count")
seen | Mine.count = 2 | hasattr(mine, "count")
seen | setattr(Mine, "count", 2) | mine.count
seen | type(mine).count = 3 | mine.count
seen | mine.__class__.count = 3 | mine.count
seen | mine.add() | mine.add()
seen | mine.add() | mine.count
seen | Mine.table["a"] = 1 | mine.table["a"] = 2
seen | del Mine.count | getattr(mine, "count", 0)
seen | Mine.new = 2 | getattr(mine, "new", 0)
seen | Begun.count = 2 | begun.count
seen | Begun.count = 2 | lower.count
seen | Lower.count = 2 | lower.count
no thing | Begun.hidden = 2 | begun.hidden
no thing | begun.own = 2 | begun.own
no thing | mine.count = 2 | mine.count
no thing | mine.count = 2 | Mine.count
no thing | mine.count += 1 | mine.count += 1
seen | Box[int].count = 1 | Box.count
seen | Box[int].count = 1 | Box.count = 2
seen | Box[int].count = 1 | Box[str].count
seen | Box[int].count = 1 | Box[str].count = 3
seen | Box[int].count += 1 | Box[int].count += 1
seen | Box[int].newer = 1 | getattr(box, "newer", 0)
seen | alias.count = 1 | Box.count
seen | alias.count = 1 | box.count
seen | alias.count = 1 | sub.count
seen | Box.count = 1 | alias.count
seen | Box.count = 1 | Box[int].count
seen | setattr(alias, "count", 2) | Box.count
seen | getattr(alias, "count") | Box.count = 2
seen | Box.get = len | Box[int].get
seen | alias.get = len | box.get
no thing | Box[int].count | Box[str].count
no thing | alias.__origin__ | alias.__args__
"""),
    Chapter("settings of objects of the library", SETTINGS, """
seen | wrapper.width = 5 | wrapper.wrap("a b")
seen | wrapper.width = 5 | wrapper.fill("a b")
seen | wrapper.width = 5 | wrapper.width = 6
starred | wrapper.initial_indent = "a" | wrapper.fill("a b")
starred | wrapper.tabsize = 5 | wrapper.wrap("a b")
starred | wrapper.placeholder = "" | wrapper.wrap("a b")
seen | width(5) | wrapper.wrap("a")
seen | mine.width = 5 | mine.wrap("a")
no thing | mine.width = 5 | mine.fill("a")
no thing | wrapper.width = 5 | wrapper.tabsize = 5
no thing | wrapper.wrap("a") | wrapper.wrap("a")
no thing | box.width = 5 | box.wrap("a")
no thing | wrapper.width | wrapper.wrap("a")
seen | context.prec = 5 | context.divide(Decimal(1), Decimal(3))
seen | context.prec = 5 | context.sqrt(Decimal(3))
seen | context.prec = 5 | context.add(Decimal(1), Decimal(3))
seen | context.prec = 5 | context.subtract(Decimal(1), Decimal(3))
seen | context.rounding = decimal.ROUND_UP | context.quantize(Decimal(1), Decimal(3))
seen | context.prec = 5 | context.create_decimal("1")
starred | context.Emax = 5 | context.add(Decimal(1), Decimal(3))
starred | context.clamp = 1 | context.multiply(Decimal(1), Decimal(3))
starred | context.capitals = 1 | context.to_sci_string(Decimal(1))
seen | context.prec += 1 | context.divide(Decimal(1), Decimal(3))
seen | setattr(context, "prec", 4) | context.divide(Decimal(1), Decimal(3))
starred | parser.prog = "a" | parser.parse_args([])
starred | parser.prefix_chars = "+" | parser.parse_known_args([])
starred | parser.epilog = "a" | parser.format_help()
starred | parser.usage = "a" | parser.format_usage()
starred | month.firstweekday = 1 | month.formatmonth(2026, 1)
starred | config.default_section = "a" | config.getint("DEFAULT", "a", fallback=1)
starred | config.default_section = "a" | config.sections()
starred | sniffer.preferred = [","] | sniffer.sniff("a,b")
starred | differ.linejunk = None | list(differ.compare(["a"], ["a"]))
starred | letter.policy = letter.policy | letter.as_string()
starred | letter.epilogue = "a" | letter.as_string()
starred | generator.maxheaderlen = 5 | generator.flatten(letter)
starred | reader.convert_charrefs = True | reader.feed("a")
starred | connection.timeout = 5 | connection.set_tunnel("a")
starred | connection.debuglevel = 0 | connection.set_tunnel("a")
starred | encoder.indent = 2 | encoder.encode([1])
starred | encoder.sort_keys = True | encoder.encode({"a": 1})
starred | encoder.ensure_ascii = True | encoder.iterencode([1])
starred | decoder.strict = False | decoder.decode("[1]")
starred | config.default_section = "a" | config.get("DEFAULT", "a", fallback=1)
starred | generator.maxheaderlen = 5 | generator.write("a")
starred | reader.convert_charrefs = True | reader.close()
starred | reader.convert_charrefs = True | reader.reset()
starred | connection.timeout = 5 | connection.close()
starred | handler.formatter = None | handler.flush()
starred | base.row_factory = None | base.execute("select 1")
starred | base.row_factory = None | base.close()
starred | cursor.arraysize = 5 | cursor.execute("select 1")
starred | cursor.row_factory = None | cursor.close()
starred | context.Emax = 5 | context.copy()
starred | opener.addheaders = [] | opener.close()
no thing | connection.close() | connection.close()
starred | decoder.object_hook = None | decoder.raw_decode("[1]")
starred | formatter.datefmt = "a" | formatter.formatTime(record)
starred | formatter.default_time_format = "%Y" | formatter.formatTime(record)
starred | handler.formatter = None | handler.handle(record)
starred | types_of.types_map = ({}, {}) | types_of.guess_type("a.txt")
starred | options.prog = "a" | options.get_prog_name()
starred | options.epilog = "a" | options.format_help()
starred | short.maxlist = 2 | short.repr([1, 2, 3])
starred | short.maxstring = 2 | short.repr("abc")
starred | short.maxlevel = 2 | short.repr1([1], 2)
starred | scheduler.timefunc = time.time | scheduler.run()
starred | lexer.whitespace = " " | lexer.get_token()
starred | lexer.commenters = "#" | lexer.get_token()
starred | base.row_factory = None | base.cursor()
starred | base.isolation_level = None | base.commit()
starred | cursor.arraysize = 2 | cursor.fetchmany()
starred | secure.check_hostname = False | secure.get_ciphers()
starred | secure.options = 0 | secure.wrap_bio(ssl.MemoryBIO(), ssl.MemoryBIO(), server_hostname="a")
starred | template.template = "b" | template.is_valid()
starred | template.template = "b" | template.safe_substitute({})
starred | request.data = b"a" | request.get_method()
starred | request.host = "a" | request.has_proxy()
starred | opener.addheaders = [] | opener.add_handler(urllib.request.BaseHandler())
starred | archive.compression = 0 | archive.writestr("a", "b")
starred | archive.pwd = b"a" | archive.namelist()
starred | info.comment = b"" | info.is_dir()
starred | tar.dereference = True | tar.getmembers()
starred | tar.debug = 0 | tar.getnames()
starred | element.tag = "b" | element.findall("c")
starred | element.text = "b" | list(element.itertext())
"""),
    Chapter("updates of fields", UPDATED, """
seen | globals().update(count=2) | write_count()
seen | globals().update({"count": 2}) | count
seen | globals().update([("count", 2)]) | count
seen | globals().update(table) | count
seen | named.update(count=2) | count
seen | named.update({"count": 2}) | count
seen | named.__ior__({"count": 2}) | count
seen | fields.update(left=2) | one.left
seen | fields.update({"left": 2}) | one.left
seen | fields.__ior__({"left": 2}) | one.left
seen | one.__dict__.__ior__({"left": 2}) | one.left
seen | update(fields, {"left": 2}) | one.left
seen | update(fields, [("left", 2)]) | one.left
seen | update(named, table) | count
seen | shared.update({"a": 2}) | shared["b"] = 3
starred | update(fields, zip(["left"], [2])) | one.left
no thing | globals().update(count=2) | write_other()
no thing | globals().update({"count": 2}) | write_other()
no thing | globals().update([("count", 2)]) | write_other()
no thing | named.update({"count": 2}) | write_other()
no thing | named.update(count=2) | write_other()
no thing | named.__ior__({"count": 2}) | write_other()
no thing | fields.update({"left": 2}) | one.right = 3
no thing | one.__dict__.__ior__({"left": 2}) | one.right = 3
no thing | update(fields, {"left": 2}) | one.right = 3
no thing | update(named, table) | write_other()
"""),
    Chapter("partial", PARTIAL, """
seen | part.keywords["n"] = 3 | part()
seen | part.keywords["n"] = 3 | part(4)
seen | part.keywords["z"] = 3 | part()
seen | part.keywords.update(n=3) | part()
seen | part.keywords["n"] = 3 | part.keywords["n"]
seen | part.keywords["n"] = 3 | dict(part.keywords)
seen | part.keywords["n"] = 3 | repr(part)
seen | part.keywords["n"] = 3 | f"{part}"
seen | part.keywords["n"] = 3 | list(map(part, [1]))
seen | part.keywords["n"] = 3 | threading.Timer(0, part).run()
seen | part.keywords["n"] = 3 | holder.part()
seen | outer.keywords["n"] = 3 | outer()
seen | part.left = 1 | part.left = 2
seen | part.left = 1 | getattr(part, "left", 0)
starred | part.__setstate__((work, (2,), {}, {})) | part()
starred | part.__setstate__((work, (2,), {}, {})) | part.args
no thing | part.args | part()
no thing | part() | part()
no thing | part.keywords["n"] | part()
no thing | part.keywords["n"] = 3 | outer()
no thing | part.left = 1 | part()
"""),
    Chapter("functions that go through what they are given", GONE_THROUGH, """
seen | one["a"] += 1 | sum([one, two], Counter())
seen | one["a"] += 1 | sum([one, two], start=Counter())
seen | one["a"] += 1 | sum({1: one, 2: two}.values(), Counter())
seen | rows[0] = 3 | sum([rows, more], [])
seen | rows.append(1) | sum((rows, more), start=[])
seen | wrapped.append(1) | sum([wrapped, wrapped], UserList())
seen | rows[0] = 3 | max(rows, more)
seen | rows.append(1) | min(more, rows)
seen | rows[0] = 3 | max([rows], [more])
seen | rows[0] = 3 | max([rows, more])
seen | rows.append(3) | max(rows, more, key=len)
seen | one["a"] += 1 | sorted([one, two], key=Counter.total)
seen | one["a"] += 1 | max([one, two], key=Counter.total)
seen | one["a"] += 1 | list(map(Counter.most_common, [one, two]))
seen | threading.Timer(0, one.update, ({"a": 1},)).run() | one["a"]
seen | threading.Timer(0, one.subtract, ({"a": 1},)).run() | one["a"]
seen | list(map(one.update, [{"a": 1}])) | one["a"]
seen | list(map(user.get, "a")) | user["a"] = 2
seen | list(map(user.pop, "a")) | user.get("a")
seen | list(map(wrapped.append, [1])) | len(wrapped)
seen | functools.reduce(Counter.__add__, [one, two]) | one["a"] += 1
seen | functools.reduce(operator.sub, [one, two]) | one["a"] += 1
seen | list(map(operator.add, [rows], [more])) | rows[0] = 2
seen | list(map(operator.add, [one], [two])) | one["a"] += 1
seen | one["a"] += 1 | two in ones
seen | table["a"] = 3 | other in tables
seen | table["a"] = 3 | tables.count(other)
seen | marks.add(3) | {1} in sets
seen | line.append(3) | deque([1]) in lines
seen | one["z"] = 1 | any([one, two])
seen | one["z"] = 1 | all([one, two])
seen | sized.left = 2 | sum([sized, larger])
seen | sized.left = 2 | max(sized, larger)
seen | sized.left = 2 | sorted([sized, larger])
seen | sized.left = 2 | {sized: 1}
seen | sized.left = 2 | sized in [larger]
seen | sized.left = 2 | range(sized)
seen | sized.left = 2 | list(sized)
seen | sized.left = 2 | any([sized])
seen | sized.left = 2 | f"{sized}"
no thing | one["a"] += 1 | one in ones
no thing | one["a"] += 1 | any([one, two])
no thing | rows[0] = 3 | max(rows, more, key=len)
no thing | rows[0] = 3 | sum(range(3), len(rows))
no thing | rows.append(1) | functools.reduce(lambda first, last: first, [rows, more])
"""),
    Chapter("functions that read bytes", BYTES, """
seen | data[0] = 50 | int(data)
seen | data[0] = 50 | int(data, 10)
seen | data[0] = 50 | float(data)
seen | data[0] = 50 | re.match(b"1", data)
seen | data[0] = 50 | re.sub(b"1", b"2", data)
seen | data[0] = 50 | pattern.search(data)
seen | data[0] = 50 | pattern.sub(b"2", data)
seen | data[0] = 50 | hashlib.sha256(data)
seen | data[0] = 50 | hmac.digest(b"k", data, "sha256")
seen | data[0] = 50 | hmac.compare_digest(data, b"1")
seen | data[0] = 50 | zlib.crc32(data)
seen | data[0] = 50 | base64.b64encode(data)
seen | data[0] = 50 | struct.unpack_from("b", data)
seen | data[0] = 50 | here.send(data)
seen | data[0] = 50 | file.write(data)
seen | data[0] = 50 | file.writelines([data])
seen | data[0] = 50 | b"".join([data, data])
seen | data[0] = 50 | word.join([data])
seen | data[0] = 50 | b"".startswith(data)
seen | data[0] = 50 | word.endswith((b"a", data))
seen | data[0] = 50 | word.find(data)
seen | data[0] = 50 | word.count(data)
seen | data[0] = 50 | word.replace(b"a", data)
seen | data[0] = 50 | word.strip(data)
seen | data[0] = 50 | data in b"123"
seen | data[0] = 50 | data in word
seen | data[0] = 50 | secrets.compare_digest(data, b"1")
seen | data[0] = 50 | compile(data, "x", "eval")
seen | numbers[0] = 50 | zlib.crc32(numbers)
seen | numbers[0] = 50 | here.send(numbers)
no thing | data[0] = 50 | own.send(data)
no thing | int(data) | float(data)
no thing | data[0] = 50 | pattern.search(b"1")
"""),
    Chapter("functions that ask each element", ASKED, """
seen | left.append(1) | list(filter(None, rows))
seen | left.append(1) | list(map(bool, rows))
seen | left.append(1) | list(itertools.filterfalse(None, rows))
seen | left.append(1) | list(itertools.compress([1, 2], rows))
seen | left[0] = 3 | list(itertools.accumulate(rows))
seen | left[0] = 3 | list(itertools.accumulate(rows, operator.add))
seen | left[0] = 3 | list(itertools.groupby(rows))
seen | left[0] = 3 | list(itertools.product(*rows))
seen | left[0] = 3 | list(heapq.merge(*rows))
seen | left[0] = 3 | list(zip(*rows))
seen | left[0] = 3 | list(map(sorted, rows))
seen | left[0] = 3 | take(*left)
seen | table["b"] = 1 | take(**table)
seen | table["b"] = 1 | {}.update(**table)
seen | table["b"] = 1 | dict(**table)
seen | table["b"] = 1 | type("New", (), table)
seen | left[0] = 3 | left.__class__(left)
seen | left[0] = 3 | reprlib.repr(rows)
seen | left[0] = 3 | statistics.NormalDist.from_samples(left)
seen | table["b"] = 1 | configparser.ConfigParser(table)
seen | table["a"] = 3 | configparser.ConfigParser().read_dict({"s": table})
seen | space.a = 2 | str(space)
seen | space.a = 2 | space == argparse.Namespace(a=1)
seen | cookie["b"] = "c" | list(cookie)
seen | cookie["b"] = "c" | "b" in cookie
seen | graph.add(1) | graph.add(2)
no thing | left[0] = 3 | list(filter(None, rows))
no thing | left.append(1) | list(itertools.compress(rows, [1, 0]))
no thing | list(filter(None, rows)) | list(map(bool, rows))
no thing | left[0] = 3 | list(itertools.accumulate(rows, lambda one, other: one))
"""),
    Chapter("classes that are made of partial", OF_PARTIAL, """
seen | part.left = 1 | getattr(part, "left", 0)
starred | part.keywords["n"] = 3 | part()
starred | left.append(1) | counting()
starred | left.append(1) | list(map(Part(len), [left]))
"""),
    Chapter("what others have made", "from array import array\nimport types\nnames = types.SimpleNamespace(left=1)", """
seen | names.left = 2 | names.left
seen | names.left = 2 | repr(names)
starred | memoryview(b"a") | memoryview(b"b")
no thing | (1, 2)[0] | (1, 2)[0]
no thing | "a".upper() | "b".upper()
no thing | frozenset((1,)) | frozenset((2,))
"""),
)


def rows() -> Iterator[Row]:
    for chapter in CHAPTERS:
        for line in textwrap.dedent(chapter.rows).strip("\n").split("\n"):
            answer, one, other = line.split(" | ")
            yield Row(chapter.name, chapter.setup, one.replace("\\n", "\n"), other.replace("\\n", "\n"), answer)


def answers() -> tuple[list[tuple[Row, str]], list[str]]:
    """Each row with the answer that a run gives, and what the program itself could not do."""
    every = list(rows())
    pairs = [Pair(row.chapter, row.one, row.setup, row.other, row.answer == SEEN) for row in every]
    faults: dict[str, str] = {}
    found: dict[int, str] = {}
    for batch in _batches(every):
        chosen = [pairs[number] for number in batch]
        before = len(passed_over.found)
        plain, races = races_of(chosen, "", faults)
        named = [*list(passed_over.found)[before:], *races.passed_over]
        starred = {one.place.partition(".")[0] for one in named}
        locked, _ = races_of(chosen, "lock", faults)
        passed_over.found.clear()
        for place, number in enumerate(batch):
            name = f"pair_{place}"
            told = f"{SEEN} under a lock" if name in locked else SEEN if name in plain else NO_THING
            found[number] = STARRED if name in starred and name not in plain else told
    return [(row, found[number]) for number, row in enumerate(every)], [*map(": ".join, faults.items())]


def _batches(every: list[Row]) -> list[list[int]]:
    """The numbers of rows that may run together: no two touch the same of what the whole process has."""
    batches: list[tuple[list[int], set[str]]] = []
    for number, row in enumerate(every):
        words = _global_words(row) if row.chapter in OF_PROCESS else set()
        for numbers, taken in batches:
            if not words & taken:
                numbers.append(number)
                taken |= words
                break
        else:
            batches.append(([number], words))
    return [numbers for numbers, _ in batches]


OF_PROCESS = frozenset(("what the library keeps", "modules"))
"""Chapters whose rows touch what there is once."""


def _global_words(row: Row) -> set[str]:
    """What a row may touch of the process: the names of modules in it, and what their functions touch."""
    called = re.findall(r"([\w.]+)\(", f"{row.one}\n{row.other}")
    things = {kept.name for name in called for kept in (CHANGES.get(name), LOOKS.get(name)) if kept is not None}
    return things | ({"sys.stdout"} if "print" in called else set()) | {
        word for word in ("log", "handler", "context", "sys.path", "sys.modules", "builtins", "os.environ")
        if re.search(rf"\b{re.escape(word)}\b", f"{row.one} {row.other}")
    }


def counts_by_chapter(found: Iterable[tuple[Row, str]]) -> str:
    """A table for the page: how many rows of each chapter have each answer."""
    counts = Counter((row.chapter, answer) for row, answer in found)
    lines = [
        f"| {name[0].upper()}{name[1:]} | {' | '.join(str(sum(counts[one, answer] for one in names)) for answer in ANSWERS)} |"
        for name, names in [*((chapter.name, [chapter.name]) for chapter in CHAPTERS), ("all", [chapter.name for chapter in CHAPTERS])]
    ]
    return "\n".join(["| What is done to | Seen | With a star | No thing |", "|---|---|---|---|", *lines])


def table() -> str:
    """The rows by chapters, as they are answered, and how many there are of each answer."""
    found, faults = answers()
    lines = [f"{answer:9} {row.chapter}: {row.one!r} beside {row.other!r}" for row, answer in found]
    lines += [f"wrong: {row.chapter}: {row.one!r} beside {row.other!r} is {answer}, and not {row.answer}" for row, answer in found if row.answer != answer]
    return "\n".join([*lines, *faults, counts_by_chapter(found)])


if __name__ == "__main__":
    if "--json" in sys.argv:
        found, faults = answers()
        wrong = [f"{row.chapter}: {row.one} | {row.other}: {answer}, not {row.answer}" for row, answer in found if answer != row.answer]
        print("", json.dumps({"wrong": wrong, "faults": faults, "count": len(found)}), sep="\n")
    else:
        print(table())
