"""Objects that are let go of in many forms of statements and expressions. Each says when it goes."""

import asyncio, collections, contextlib, copy, functools, gc, itertools, queue, threading, weakref
t = threading.Thread(target=int); t.start(); t.join()
class R:
    def __init__(self, n): self.n = n
    def __del__(self): print("gone", self.n, flush=True)
class S:
    __slots__ = ("a", "__weakref__")
    def __del__(self): print("gone slot", flush=True)
class L(list):
    def __del__(self): print("gone list", flush=True)
class D(dict):
    def __del__(self): print("gone dict", flush=True)
class F:
    def __init__(self): self.r = R("field")
def in_thread(f):
    def run():
        try: f()
        except Exception as error: print("raised", type(error).__name__)
        print("end", f.__name__, flush=True)
    t = threading.Thread(target=run); t.start(); t.join()
shared, items = {"k": None}, []
def a1(): items.append(R(1)); items.pop()
def a2(): shared["k"] = R(2); del shared["k"]
def a3(): shared["k"] = R(3); shared["k"] = None
def a4(): x = [R(4)]; y = x[0]; del x; print("x"); del y; print("y")
def a5(): L().append(1); print("after")
def a6(): D(a=1).update(b=2); print("after")
def a7(): D(a=1)["b"] = 3; print("after")
def a8(): [*L([1])]; print("after")
def a9(): sorted(L([2, 1])); print("after")
def a10(): len(L()); bool(D()); print("after")
def a11():
    for x in L([1, 2]): print(x)
    print("after")
def a12(): a, b = L([1, 2]); print("after")
def a13(): f = F(); f.r = None; print("field"); del f; print("f")
def a14(): F().r.n; print("after")
def a15(): F().r.n = 3; print("after")
def a16(): del F().r; print("after")
def a17(): s = S(); s.a = R("slot"); del s; print("after")
def a18(): x = {R(18): 1}; x.clear(); print("clear")
def a19(): x = [R(19)]; x[:] = []; print("slice")
def a20(): x = [R(20)]; x += []; del x[0]; print("del")
def a21(): x = collections.deque([R(21)]); x.popleft(); print("popleft")
def a22(): x = iter([R(22)]); next(x); print("next"); del x; print("iter")
def a23():
    def g():
        r = R(23); yield r.n; yield r.n
    i = g(); next(i); i.close(); print("closed")
def a24():
    try: raise KeyError(R(24))
    except KeyError as e: e.args
    print("handled")
def a25():
    with contextlib.suppress(ValueError): x = R(25); raise ValueError
    print("suppressed")
def a26(): x = functools.partial(print, R(26)); x.args; del x; print("partial")
def a27(): x = {"a": R(27)}; y = x.pop("a"); del y; print("pop")
def a28(): x = {"a": R(28)}; x.setdefault("a", R("other")); print("setdefault"); x.popitem(); print("popitem")
def a29(): [R(29) for _ in range(1)][0].n; print("comp")
def a30(): (lambda: R(30))().n; print("lambda")
def a31(): f"{L([1])} {D(a=1)}"; print("fmt")
def a32(): L([1]) == L([1]); L([1]) + L([2]); print("compared")
def a33(): x = L([1]); y = x; x = None; y.extend([R(33)]); y = None; print("alias")
def a34():
    global g
    g = R(34); g = None; print("global")
def a35():
    n = R(35)
    def inner(): nonlocal n; n = None
    inner(); print("cell")
def a36(): x = weakref.ref(r := R(36)); x().n; del r; print(x())
def a37(): x = copy.copy(L([1])); del x; print("copy")
def a38(): print(max(L([1, 3])), sum(L([1])), "a" in D(a=1), list(zip(L([1]), L([2])))); print("looked")
def a39(): match_(L([1, 2])); print("matched")
def match_(x):
    match x:
        case [a, b]: pass
def a40(): q = queue.Queue(); q.put(R(40)); q.get(); print("got")
def a41(): next(itertools.chain(L([1]), [2])); print("chain")
def a42(): x = [1, 2]; x.append(x); del x; print("cycle", gc.collect() > 0)
def a43(): L([3, 1]).sort(); L([1]).index(1); L([1]).reverse(); print("methods")
def a44(): L([[R(44)]])[0][0].n; print("deep")
def a45(): x = L([1]); x.append(x.append); x.clear(); print("bound"); del x; print("x")
def a46(): D(a=1) | D(b=2); print("or")
def a47(): x, y = R("x"), R("y"); x, y = y, x; print("swapped"); del x; print("x gone")
def a48(): (R(48) if items else R("other")).n; print("ifexp")
def a49(): assert F().r.n, F().r; print("assert")
def a50(): return F().r.n
def a51():
    class Own(L): pass
    x = Own([1]); x.append(id(x.sort)); reference = weakref.ref(Own); del x, Own; gc.collect(); print("class", reference())
async def b1(): await asyncio.sleep(0); F().r.n; print("async")
async def b2():
    async with asyncio.Lock(): L().append(1)
    print("async with")
async def b3(): t = asyncio.create_task(b1()); await t; del t; print("task")
for name, f in list(globals().items()):
    if name[0] == "a" and name[1:].isdigit(): in_thread(f)
    elif name[0] == "b" and name[1:].isdigit(): asyncio.run(f())
at_end = R("at the end")
print("the end")
