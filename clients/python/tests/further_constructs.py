"""Further programs for `tests.constructs`, past the syntax that hooks stand in: functions in C that classes have,
attributes of classes below those of the language, texts that are run, and dictionaries of fields.
"""

from __future__ import annotations

GETTERS = """
## a property is found by attrgetter
import operator
class Row:
    price = property(operator.attrgetter("_price"))
    def __init__(self): self._price = 1
row = Row()
def first(): row._price = 2  # race
def second(): row.price  # race
## a property is found by attrgetter in another object
import operator
class Inner: pass
class Row:
    price = property(operator.attrgetter("inner.price"))
    def __init__(self): self.inner, self.inner.price = Inner(), 1
row = Row()
def first(): row.inner.price = 2  # race
def second(): row.price  # race
## a property of a class above is asked for by its name
import operator
class Row:
    price = property(operator.attrgetter("_price"))
    def __init__(self): self._price = 1
class Lower(Row): pass
row = Lower()
def first(): row._price = 2  # race
def second(): getattr(row, "price")  # race
## a property is found by itemgetter
import operator
class Table(dict):
    price = property(operator.itemgetter("price"))
table = Table(price=1)
def first(): table["price"] = 2  # race
def second(): table.price  # race
## a property is the length of a list
class Rows(list):
    size = property(len)
rows = Rows()
def first(): rows.append(1)  # race
def second(): rows.size  # race
## a property is a copy of a list
class Rows(list):
    all = property(list.copy)
rows = Rows([1])
def first(): rows.append(2)  # race
def second(): rows.all  # race
## a property takes from a list by methodcaller
import operator
class Rows(list):
    last = property(operator.methodcaller("pop"))
rows = Rows([1])
def first(): rows.last  # race
def second(): len(rows)  # race
## a property is found in C, and set by a function
import operator
class Row:
    price = property(operator.attrgetter("_price"), lambda self, price: setattr(self, "_price", price))  # race
    def __init__(self): self._price = 1
row = Row()
def first(): row.price = 2
def second(): row.price  # race
## a property of a row is an element that may change
import operator
class Pair(tuple):
    rows = property(operator.itemgetter(0))
pair = Pair(([1],))
def first(): pair[0].append(1)  # race
def second(): len(pair.rows)  # race
## a property by itemgetter is another element
import operator
class Table(dict):
    price = property(operator.itemgetter("price"))
table = Table(price=1)
def first(): table["left"] = 2
def second(): table.price
## a property by attrgetter has a lock around it
import operator, threading
guard = threading.Lock()
class Row:
    price = property(operator.attrgetter("_price"))
    def __init__(self): self._price = 1
row = Row()
def first():
    with guard: row._price = 2
def second():
    with guard: row.price
## rows are grouped by an element
import itertools, operator
rows = [{"kind": 1}, {"kind": 2}]
def first(): rows[0]["kind"] = 3  # race
def second(): [*itertools.groupby(rows, operator.itemgetter("kind"))]  # race
## rows are grouped by another element
import itertools, operator
rows = [{"kind": 1}, {"kind": 2}]
def first(): rows[0]["left"] = 3
def second(): [*itertools.groupby(rows, operator.itemgetter("kind"))]
## rows are passed over by a getter that has a name
import itertools, operator
rows = [{"kind": 1}, {"kind": 2}]
of_kind = operator.itemgetter("kind")
def first(): rows[0]["kind"] = 3  # race
def second(): [*itertools.filterfalse(of_kind, rows)]  # race
## objects are taken as long as a field says so
import itertools, operator
class Row:
    def __init__(self): self.left = 1
rows = [Row()]
def first(): rows[0].left = 3  # race
def second():
    for one in itertools.takewhile(operator.attrgetter("left"), rows): pass  # race
## the language calls methods of a container by other names
class Table(dict):
    __call__ = dict.get  # star get as it is handed on
    __getattr__ = dict.__getitem__
class Rows(list):
    __lshift__ = list.append  # star append as it is handed on
    add = list.append
    __repr__ = list.__repr__
table, rows = Table(a=1), Rows()
def first(): table["a"], rows << 1
def second(): table("a"), len(rows)
## a context calls a method of a list
import contextvars
items, context = [], contextvars.copy_context()
def first(): context.run(items.append, 1)  # race
def second(): len(items)  # race
## lists are added to the first one
import itertools, operator
rows = [[1], [2]]
def first(): len(rows[0])  # race
def second(): [*itertools.accumulate(rows, operator.iadd)]  # race
"""

BELOW = """
## a variable of a class of lists
class Rows(list): limit = 3
rows = Rows()
def first(): Rows.limit = 4  # race
def second(): rows.limit  # race
## a variable of a class of dictionaries, in its own method
class Table(dict):
    limit = 3
    def is_full(self): return len(self) > self.limit  # race
table = Table()
def first(): Table.limit = 4  # race
def second(): table.is_full()
## variables of classes of numbers and sets
class Number(int): unit = 0
class Share(float): unit = 1
class Marks(frozenset): unit = 1
number, share, marks = Number(1), Share(1), Marks()
def first():
    Number.unit = 1  # race
    Share.unit = 1  # race
    Marks.unit = 1  # race
def second():
    number.unit  # race
    share.unit  # race
    marks.unit  # race
## a variable of a class of rows with names
import collections
class Pair(collections.namedtuple("Pair", "x y")): scale = 1
pair = Pair(1, 2)
def first(): Pair.scale = 2  # race
def second(): pair.scale * pair.x  # race
## a variable of a class of dictionaries, by a class below
class Table(dict): limit = 1
class Lower(Table): pass
table = Lower()
def first(): Table.limit = 4  # race
def second(): table.limit  # race
## a number of a deque begins at that of its class
import collections
class Line(collections.deque): count = 0
line = Line()
def first(): line.count += 1  # race
def second(): line.count  # race
## a variable of a class of bytes and of a text in memory
import io
class Bytes(bytearray): limit = 1
class Text(io.StringIO): limit = 1
data, text = Bytes(), Text()
def first():
    Bytes.limit = 4  # race
    Text.limit = 4  # race
def second():
    data.limit  # race
    text.limit  # race
## fields that are not there yet
class Name(str): pass
class Table(dict): pass
class Rows(list): pass
name, table, rows = Name("a"), Table(), Rows()
def first():
    name.seen = 1  # race
    table.seen = 1  # race
    rows.seen = 1  # race
def second():
    getattr(name, "seen", None)  # race
    hasattr(table, "seen")  # race
    try: rows.seen  # race
    except AttributeError: pass
## slots of a class of dictionaries
class Table(dict):
    __slots__ = ("last",)
table = Table()
table.last = 1
def first(): table.last = 2  # race
def second(): table.last  # race
## a method of a class of dictionaries is replaced
class Table(dict):
    def size(self): return len(self)
table = Table()
def free(self): return 3
def first(): Table.size = free  # race
def second(): table.size()  # race
## a property of a class of rows is replaced by one in C
class Row(tuple):
    @property
    def size(self): return 1
row = Row()
def first(): Row.size = property(len)  # race
def second(): row.size  # race
## a method of a set is replaced
class Marks(set):
    def size(self): return 1
marks = Marks()
def free(): return 3
def first(): marks.size = free  # race
def second(): marks.size()  # race
## a class of lists has a way of its own to find attributes
class Rows(list):
    asked = 0
    def __getattribute__(self, name):
        Rows.asked += 1  # race
        return super().__getattribute__(name)
rows = Rows()
def first(): rows.copy
def second(): Rows.asked  # race
## an object of a class of dictionaries has its own in place of that of the class
import collections
class Table(collections.defaultdict): limit = 1
table = Table()
table.limit = 5
def first(): Table.limit = 4
def second(): table.limit
## fields of a row with names are only read
import collections
class Pair(collections.namedtuple("Pair", "x y")): scale = 1
pair = Pair(1, 2)
def first(): pair.x, pair.scale
def second(): pair.x, pair.scale
"""

TEXTS = """
## what runs a text has another name
run = exec  # star exec
count = 1
def first(): run("count = 2", globals())
def second(): count
## what runs a text is handed on
def first(): list(map(exec, ["1"]))  # star exec
def second(): list(map(eval, ["1"]))  # star eval
## what runs a text is found among the builtins
import builtins
def first(): builtins.exec("1")  # star exec
def second(): getattr(builtins, "eval")("1")  # star eval
## what runs a text is imported
from builtins import exec as run  # star exec
def first(): run("1")
def second(): run("1")
## the library runs a text
import cProfile, code, timeit
def first():
    code.InteractiveInterpreter({}).runsource("1")  # star InteractiveInterpreter
    timeit.timeit("1", number=1)  # star timeit
def second(): timeit.timeit(lambda: 1, number=1)
## a function is made of some code and other variables
import types
count = 1
def work(): return count
other = {"count": 1}
made = types.FunctionType(work.__code__, other)  # star FunctionType
def first(): made()
def second(): other["count"] = 2
## a function is made by the type of another one
def work(): return 1
def first(): type(work)(work.__code__, {})()  # star FunctionType
def second(): work()
## a function is made of some code and its own variables
import types
count = 1
def work(): return count  # race
made = types.FunctionType(work.__code__, globals())
def first(): made()
def second():
    global count
    count = 2  # race
## functions of the program have such names
class Model:
    def eval(self): return self
    def exec(self, text): return text
def evaluate(eval): return eval
model = Model()
def first(): model.eval().exec("1"), evaluate("eval")
def second(): isinstance(evaluate, type(evaluate)), model.exec("exec")
"""

DICTIONARIES = """
## the fields of an object are kept by vars
class S: pass
s = S(); s.x = 1
d = vars(s)
def first(): d["x"] = 2  # race
def second(): s.x  # race
## the fields of an object are kept in a field
class S:
    def __init__(self):
        self.x = 1
        self.all = self.__dict__
s = S()
def first(): s.all["x"] = 2  # race
def second(): s.x  # race
## the fields of an object are given back
class S:
    def __init__(self): self.x = 1
    def all(self): return self.__dict__
s = S()
d = s.all()
def first(): d["x"] = 2  # race
def second(): s.x  # race
## the fields of an object are handed to a class
class S:
    def __init__(self): self.x = 1
class View:
    def __init__(self, rows): self.rows = rows
s = S()
v = View(vars(s))
def first(): v.rows["x"] = 2  # race
def second(): s.x  # race
## the fields of an object are handed on by a word
class S:
    def __init__(self): self.x = 1
s = S()
class View:
    def __init__(self, rows): self.rows = rows
v = View(rows=s.__dict__)
def first(): v.rows.update(x=2)  # race
def second(): s.x  # race
## the fields of objects are kept in containers
class S:
    def __init__(self): self.x = 1
s, t = S(), S()
l, m = [vars(s)], {"t": vars(t)}
def first():
    l[0]["x"] = 2  # race
    m["t"]["x"] = 2  # race
def second():
    s.x  # race
    t.x  # race
## the fields of an object are kept by a walrus
class S:
    def __init__(self): self.x = 1
s = S()
if (d := s.__dict__): pass
def first(): d["x"] = 2  # race
def second(): s.x  # race
## the variables of a module are kept
x = 1
g = globals()
def first(): g["x"] = 2  # race
def second(): x  # race
## a field of a namespace, by the dictionary of its fields
import types
ns = types.SimpleNamespace(a=1)
def first(): vars(ns)["a"] = 2  # race
def second(): ns.a  # race
## fields of a namespace are updated
import types
ns = types.SimpleNamespace(a=1)
def first(): vars(ns).update(a=2)  # race
def second(): ns.a  # race
## a field of an exception, by the dictionary of its fields
e = ValueError(1)
e.n = 1
def first(): e.__dict__["n"] = 2  # race
def second(): e.n  # race
## a field of an object that has slots and a dictionary
class S:
    __slots__ = ("__dict__",)
s = S(); s.x = 1
def first(): s.__dict__["x"] = 2  # race
def second(): s.x  # race
## a field of a number, by the dictionary of its fields
class N(int): pass
n = N(1); n.x = 1
def first(): n.__dict__["x"] = 2  # race
def second(): n.x  # race
## the fields of a row are gone through
class N(tuple): pass
n = N(); n.x = 1
def first(): n.x = 2  # race
def second():
    for name, value in vars(n).items(): pass  # race
## the fields of a namespace are copied
import types
ns = types.SimpleNamespace(a=1)
def first(): ns.a = 2  # race
def second(): dict(vars(ns))  # race
## another field of a namespace
import types
ns = types.SimpleNamespace(a=1, b=2)
def first(): vars(ns)["a"] = 2
def second(): ns.b, vars(ns)["b"]
## two namespaces have a field of one name
import types
ns, ot = types.SimpleNamespace(a=1), types.SimpleNamespace(a=1)
def first(): vars(ns)["a"] = 2
def second(): vars(ot)["a"], ot.a
## the names of the fields of a namespace
import types
ns = types.SimpleNamespace(a=1)
def first(): vars(ns)["a"] = 2
def second(): list(vars(ns)), len(vars(ns))
## the fields of a function are kept
def f(): pass
f.n = 1
d = f.__dict__
def first(): d["n"] = 2  # race
def second(): f.n  # race
## the fields of a class are kept
class C: n = 1
d = vars(C)
def first(): C.n = 2  # race
def second(): d["n"]  # race
## the variables of a module that is made are kept
import types
m = types.ModuleType("m"); m.n = 1
d = m.__dict__
def first(): d["n"] = 2  # race
def second(): m.n  # race
## a kept dictionary has another field
class S:
    def __init__(self): self.x = self.y = 1
s = S()
d = vars(s)
def first(): d["x"] = 2
def second(): d["y"], s.y
"""

STREAMS = """
## a digest gets two pieces
import hashlib
one = hashlib.sha256()
def first(): one.update(b"a")  # race
def second(): one.update(b"b")  # race
## a digest is asked for
import hashlib
one, other = hashlib.md5(), hashlib.blake2b()
def first():
    one.update(b"a")  # race
    other.update(b"a")  # race
def second():
    one.hexdigest()  # race
    other.copy()  # race
## a digest is only asked for
import hashlib
one = hashlib.md5(b"a")
def first(): one.hexdigest()
def second(): one.digest(), one.name
## a code of a message gets a piece
import hmac
one = hmac.new(b"k", b"", "sha256")
def first(): one.update(b"a")  # race
def second(): one.digest()  # race
## pieces are compressed
import zlib, bz2
one, other = zlib.compressobj(), bz2.BZ2Compressor()
def first():
    one.compress(b"a")  # race
    other.compress(b"a")  # race
def second():
    one.flush()  # race
    other.flush()  # race
## a decoder goes on
import codecs
one = codecs.getincrementaldecoder("utf-8")()
def first(): one.decode(b"\\xc3")  # race
def second(): one.reset()  # race
## two texts are compared
import difflib
one = difflib.SequenceMatcher(None, "abc", "abd")
def first(): one.set_seq1("xyz")  # race
def second(): one.ratio()  # race
## each has a digest of its own
import hashlib
def first(): one = hashlib.md5(); one.update(b"a"); one.hexdigest()
def second(): one = hashlib.md5(); one.update(b"b"); one.hexdigest()
## a class of the program is a decoder
import codecs
class Own(codecs.IncrementalDecoder):
    count = 0
    def decode(self, data, final=False):
        self.count += 1  # race
        return ""
one = Own()
def first(): one.decode(b"a")
def second(): one.count  # race
"""

GIVEN = """
## a command is run with words
import subprocess
words = ["true"]
def first(): words.append("a")  # race
def second(): subprocess.run(words)  # race
## bytes are written
import os
r, w = os.pipe()
data = bytearray(b"12")
def first(): data[0] = 51  # race
def second(): os.write(w, data)  # race
## bytes are sent
import socket
one, two = socket.socketpair()
data = bytearray(b"12")
def first(): data[0] = 51  # race
def second(): one.sendall(data)  # race
## a statement has parameters
import sqlite3
base = sqlite3.connect(":memory:", check_same_thread=False)
words, rows = [1], [(1,)]
base.execute("create table t (a)")
def first():
    words[0] = 2  # race
    rows.append((2,))  # race
def second():
    base.execute("select ?", words)  # race
    base.executemany("insert into t values (?)", rows)  # race
## what is waited for is a list
import select
doors = []
def first(): doors.append(0)  # race
def second(): select.select(doors, [], [], 0)  # race
## each runs its own words
import subprocess
def first(): words = ["true"]; words.append("a"); subprocess.run(words)
def second(): words = ["true"]; subprocess.run(words)
## a method of this name of the program is given a list
class Base:
    def execute(self, words): return 1
base, words = Base(), []
def first(): words.append(1)
def second(): base.execute(words)
"""

OTHER_NAMES = """
## the fields of an object are found by getattr
class S: pass
s = S()
s.x = 1
def first(): getattr(s, "__dict__")["x"] = 2  # race
def second(): s.x  # race
## the fields of an object are found past its class
class S: pass
s = S()
s.x = 1
def first(): object.__getattribute__(s, "__dict__")["x"] = 2  # race
def second(): s.x  # race
## the fields of an object are found by attrgetter
import operator
class S: pass
s = S()
s.x = 1
def first(): operator.attrgetter("__dict__")(s)["x"] = 2  # race
def second(): s.x  # race
## the fields of an object are found by vars that is handed on
class S: pass
s = S()
s.x = 1
def first(): next(map(vars, [s]))["x"] = 2  # race
def second(): s.x  # race
## the fields of an object are found by another name of vars
class S: pass
s = S()
s.x = 1
v = vars
def first(): v(s)["x"] = 2  # race
def second(): s.x  # race
## the fields of an object are found by what gives them
class S: pass
s = S()
s.x = 1
def first(): S.__dict__["__dict__"].__get__(s)["x"] = 2  # star __dict__
def second(): s.x
## the variables of a module are found by another name
variables = globals  # star globals
x = 1
def first(): variables()["x"] = 2
def second(): x
## the variables of a module are its locals
x = 1
here = locals()
def first(): here["x"] = 2  # race
def second(): x  # race
## the variables of a module are given by vars
x = 1
here = vars()
def first(): here["x"] = 2  # race
def second(): x  # race
## the variables of a module are found among the modules
import sys
x = 1
here = sys.modules[__name__].__dict__
def first(): here["x"] = 2  # race
def second(): x  # race
## the variables of the body of a class are another dictionary
class A:
    level = 1
    space = locals()
def first(): A.space["level"] = 2
def second(): A.level
## a field is stored by another name of setattr
class S: pass
s = S()
s.x = 1
put = setattr
def first(): put(s, "x", 2)  # race
def second(): s.x  # race
## a field is stored by a name of a method of object
class S: pass
s = S()
s.x = 1
put = object.__setattr__
def first(): put(s, "x", 2)  # race
def second(): s.x  # race
## a field is found by a part of getattr
import functools
class S: pass
s = S()
s.x = 1
get = functools.partial(getattr, s)
def first(): s.x = 2  # race
def second(): get("x")  # race
## a list is added to by a name of its method
items = []
add = list.append
def first(): add(items, 1)  # race
def second(): len(items)  # race
## a list is sorted by another name
items = []
order = sorted
def first(): items.append(1)  # race
def second(): order(items)  # race
## a method of a list has a computed name
items = []
def first(): getattr(items, "app" + "end")(1)  # race
def second(): len(items)  # race
## a method of a list is found in its class
items = [1]
def first(): items.__class__.__setitem__(items, 0, 2)  # race
def second(): items[0]  # race
## what a class is made of has a name
class Table(dict):
    def put(self, key, value):
        base = super()
        base.__setitem__(key, value)  # race
table = Table()
def first(): table.put("a", 1)
def second(): table.get("a")  # race
"""

CHAPTERS = {
    "functions in C that classes have, and that steps call": GETTERS,
    "attributes of classes below those of the language": BELOW,
    "texts and code that run": TEXTS,
    "dictionaries of fields": DICTIONARIES,
    "what takes one piece after another": STREAMS,
    "what the library is given": GIVEN,
    "what has another name": OTHER_NAMES,
}
