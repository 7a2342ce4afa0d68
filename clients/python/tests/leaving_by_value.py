"""Functions, classes and objects of many kinds leave by value, and work in a process that knows nothing of this one."""

import sys, threading, subprocess, functools, dataclasses, enum, abc, contextlib
import pickle
import cloudpickle
t = threading.Thread(target=int); t.start(); t.join()
total, rows, table = 5, [1, 2, 3], {"a": 1}
class Shop:
    stock = {"left": 3}
    __slots__ = ("name", "items")
    def __init__(self, name): self.name, self.items = name, []
    def sell(self, n):
        self.items.append(n); Shop.stock["left"] -= n; return self.name, self.items, Shop.stock
    @property
    def count(self): return len(self.items)
    @staticmethod
    def make(n): return Shop(n)
    @classmethod
    def of(cls, *names): return [cls(n).name for n in names]
class Child(Shop):
    def sell(self, n): return "child", super().sell(n)
    def __getattr__(self, name): return name
@dataclasses.dataclass
class Row:
    a: int
    b: list = dataclasses.field(default_factory=list)
    def add(self, x): self.b.append(x); return self
class Colour(enum.Enum):
    RED = 1
    def next(self): return table.get("a", self.value)
class Base(abc.ABC):
    @abc.abstractmethod
    def f(self): ...
class Done(Base):
    def f(self): return [r for r in rows if r > 1]
class Meta(type):
    def __call__(cls, *a): made = super().__call__(*a); made.tag = table["a"]; return made
class WithMeta(metaclass=Meta): pass
class Mapping(dict):
    def __missing__(self, k): self[k] = k * 2; return self[k]
def deco(f):
    @functools.wraps(f)
    def g(*a, **k): rows.append(1); return f(*a, **k)
    return g
@deco
def decorated(x): return x + total + len(rows)
def fact(n): return 1 if n < 2 else n * fact(n - 1)
def gen(n):
    for i in range(n):
        got = yield i, rows[i % 3]
async def co(n):
    import asyncio
    await asyncio.sleep(0); table["b"] = n
    return [x async for x in agen(n)], table
async def agen(n):
    for i in range(n): yield i
def matching(x):
    match x:
        case {"a": v, **rest}: return v, rest
        case [first, *more]: return first, more
        case Row(a=a): return a
    return None
def groups():
    try: raise ExceptionGroup("g", [ValueError(1), KeyError(2)])
    except* ValueError as g: return_value = [str(e) for e in g.exceptions]
    except* KeyError: pass
    return return_value
def defaults(a, b=[], *c, d=table, **e): b.append(a); d["x"] = a; return b, c, d, e
def closes():
    n = 0
    def inc(): nonlocal n; n += 1; return n
    return inc
def uses_global():
    global total
    total += 1
    return total
def deletes(): d = {"k": 1, "l": 2}; del d["k"]; l = [1, 2, 3]; del l[0], l[:1]; return d, l
def walrus(): return [y := total, y + 1, (z := y) in rows]
def ctx():
    @contextlib.contextmanager
    def inner(): rows.append(2); yield rows; rows.pop()
    with inner() as r: return list(r)
def fmt(): return f"{rows!r:>10} {table['a']:03d} {total=}", "%s %s" % (rows, table), "{0[0]} {1}".format(rows, total)
def chained(): return total < len(rows) < 100, rows == [1] != rows, total in rows or rows
def comps(): return {k: v for k, v in table.items() if k == "a"}, {r for r in rows}, [[c for c in range(r)] for r in rows][:2], tuple(r for r in rows)
def star(): a, *b = rows; (c, d), e = [1, 2], rows; return a, b[:1], c, d, [*rows, *b][:3], {**table, "q": 1}["q"]
def attrs(): s = Shop("n"); s.name += "x"; setattr(s, "items", [1]); return getattr(s, "name"), s.items, hasattr(s, "zz")
def trys():
    try: {}["k"]
    except KeyError as e: r = e.args
    else: r = None
    finally: rows.append(9); rows.pop()
    return r
def loops():
    out = []
    for i, (k, v) in enumerate({"a": 1}.items()): out.append((i, k, v))
    else: out.append("else")
    while out and len(out) < 4: out.append(len(out))
    return out
lam = lambda x, *y: (x, y, rows[0], sorted(table))
part = functools.partial(defaults, 1, d={})
bound = Shop("b").sell
THINGS = {
    "Shop": (Shop, "one('n').sell(1), one.of('a','b'), one.make('q').count"),
    "Child": (Child, "one('n').sell(1), one('n').zz"),
    "Row": (Row, "one(1).add(2).add(3)"),
    "Colour": (Colour, "one.RED.next()"),
    "Done": (Done, "one().f()"),
    "WithMeta": (WithMeta, "one().tag"),
    "Mapping": (Mapping, "one()[2]"),
    "decorated": (decorated, "one(1)"),
    "fact": (fact, "one(6)"),
    "gen": (gen, "list(one(3))"),
    "co": (co, "__import__('asyncio').run(one(3))"),
    "agen": (agen, "one(1).__class__"),
    "matching": (matching, "one({'a':1,'b':2}), one([1,2,3]), one(3)"),
    "groups": (groups, "one()"),
    "defaults": (defaults, "one(1), one(2, z=3)"),
    "closes": (closes, "one()()"),
    "closed": (closes(), "one(), one()"),
    "uses_global": (uses_global, "one(), one()"),
    "deletes": (deletes, "one()"),
    "walrus": (walrus, "one()"),
    "ctx": (ctx, "one()"),
    "fmt": (fmt, "one()"),
    "chained": (chained, "one()"),
    "comps": (comps, "one()"),
    "star": (star, "one()"),
    "attrs": (attrs, "one()"),
    "trys": (trys, "one()"),
    "loops": (loops, "one()"),
    "lam": (lam, "one(1, 2)"),
    "part": (part, "one()"),
    "bound": (bound, "one(2)"),
    "instance": (Row(3).add(1), "one.add(2)"),
    "nested": ([{"f": (lam, fact)}], "one[0]['f'][1](3)"),
}
given = []
for name, (one, use) in THINGS.items():
    given.append((name, cloudpickle.dumps(one), use))
LOAD = """
import pickle, sys
for name, data, use in pickle.load(sys.stdin.buffer):
    try:
        one = pickle.loads(data)
        print(name, eval(use))
    except Exception as error:
        print(name, "fails", type(error), error)
"""
ran = subprocess.run([sys.executable, "-c", LOAD], input=pickle.dumps(given), capture_output=True)
print(ran.stdout.decode(), ran.stderr.decode()[-300:])
