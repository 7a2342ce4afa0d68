"""Programs of Twisted as people write them, for `test_twisted`.

Each has a safe way, and a free one that races at the lines with the mark `#!`, and at no other.
"""

from __future__ import annotations

import re
from typing import NamedTuple

BEGIN = """import sys
from twisted.internet import defer, protocol, reactor, task, threads
from twisted.internet.defer import Deferred, inlineCallbacks
is_safe = sys.argv[1] == "safe"
def sleep(seconds=0.001): return task.deferLater(reactor, seconds, lambda: None)
def finish(told, *made):
    def end(result):
        print(told())
        reactor.stop()
    defer.gatherResults(made).addBoth(end)
    reactor.run()
"""


class Program(NamedTuple):
    """What one is, what it prints each way, and the things that race in the free way."""

    name: str
    safe: str
    free: str
    things: str
    text: str

    @property
    def source(self) -> str:
        return BEGIN + self.text

    @property
    def racing_lines(self) -> list[int]:
        return [number for number, line in enumerate(self.source.splitlines(), 1) if line.endswith("#!")]


PROGRAMS = (
    Program("counter", "3", "1", "counter['n']", """
counter, lock = {"n": 0}, defer.DeferredLock()
@inlineCallbacks
def bump():
    n = counter["n"]
    yield sleep()
    counter["n"] = n + 1  #!
def one(): return lock.run(bump) if is_safe else bump()
finish(lambda: counter["n"], *(one() for _ in range(3)))
"""),
    Program("chat", "[b'taken', b'welcome']", "[b'welcome', b'welcome']", "users[b'ann']", """
from twisted.protocols.basic import LineReceiver
users, asking, answers = {}, [], []
def check(name):
    asked = Deferred()
    asking.append(asked)
    if len(asking) == 2:
        for one in asking: one.callback(True)
    return asked
class Chat(LineReceiver):
    def lineReceived(self, line):
        self.register(line)
    @inlineCallbacks
    def register(self, name):
        if is_safe: yield check(name)
        if name in users:  #!
            self.sendLine(b"taken")
            return
        if not is_safe: yield check(name)
        users[name] = self  #!
        self.sendLine(b"welcome")
class Client(LineReceiver):
    def connectionMade(self): self.sendLine(b"ann")
    def lineReceived(self, line):
        answers.append(line)
        self.transport.loseConnection()
        self.factory.done.callback(1)
class Clients(protocol.ClientFactory):
    protocol, noisy = Client, False
    def __init__(self): self.done = Deferred()
server = protocol.Factory.forProtocol(Chat)
server.noisy = False
port = reactor.listenTCP(0, server, interface="127.0.0.1")
clients = [Clients(), Clients()]
for one in clients: reactor.connectTCP("127.0.0.1", port.getHost().port, one)
finish(lambda: sorted(answers), *(one.done for one in clients))
"""),
    Program("cache", "(1, {'a': 'A'})", "(2, {'a': 'A'})", "cache['a']", """
cache, fetched, lock = {}, [], defer.DeferredLock()
@inlineCallbacks
def fetch(key):
    fetched.append(key)
    yield sleep()
    return key.upper()
@inlineCallbacks
def get(key):
    if key not in cache:
        value = yield fetch(key)
        cache[key] = value  #!
    return cache[key]
def one(key): return lock.run(get, key) if is_safe else get(key)
finish(lambda: (len(fetched), cache), one("a"), one("a"))
"""),
    Program("limiter", "(2, 15)", "(2, 'any')", "state['total']", """
state, limit = {"active": 0, "most": 0, "total": 0}, defer.DeferredSemaphore(2)
@inlineCallbacks
def fetch(number):
    state["active"] += 1
    state["most"] = max(state["most"], state["active"])
    yield sleep()
    state["active"] -= 1
    if is_safe:
        state["total"] += number
        return
    total = state["total"]  #!
    yield sleep(0.02)
    state["total"] = total + number  #!
def told(): return state["most"], state["total"] if is_safe else "any"
finish(told, *(limit.run(fetch, number) for number in range(1, 6)))
"""),
    Program("threads", "6", "any", "totals['all']", """
totals = {"all": 0}
def work(number):
    if not is_safe:
        totals["all"] += number  #!
    return number
@inlineCallbacks
def one(number):
    number = yield threads.deferToThread(work, number)
    if is_safe:
        totals["all"] += number
finish(lambda: totals["all"] if is_safe else "any", *(one(number) for number in (1, 2, 3)))
"""),
    Program("looping", "any", "any", "stats", """
stats, sent = {}, []
@inlineCallbacks
def flush():
    rows = list(stats.items())  #!
    if is_safe: stats.clear()
    yield sleep()
    sent.extend(rows)
    if not is_safe: stats.clear()  #!
@inlineCallbacks
def requests():
    for number in range(20):
        stats[f"page{number}"] = 1  #!
        yield sleep()
loop = task.LoopingCall(flush)
ended = loop.start(0.002, now=True)
asked = requests()
asked.addCallback(lambda _: loop.stop())
finish(lambda: "any", ended, asked)
"""),
    Program("web", "[b'1', b'2', b'3']", "[b'1', b'1', b'1']", "visits['home']", """
from twisted.web import resource, server
from twisted.web.client import Agent, readBody
visits, lock, asked = {"home": 0}, defer.DeferredLock(), []
class Home(resource.Resource):
    isLeaf = True
    def render_GET(self, request):
        (lock.run(self.count, request) if is_safe else self.count(request))
        return server.NOT_DONE_YET
    @inlineCallbacks
    def count(self, request):
        number = visits["home"]  #!
        yield self.all_asked()
        visits["home"] = number + 1  #!
        request.write(str(number + 1).encode())
        request.finish()
    def all_asked(self):
        if is_safe: return sleep()
        asked.append(Deferred())
        if len(asked) == 3:
            for one in asked: reactor.callLater(0, one.callback, 1)
        return asked[-1]
site = server.Site(Home())
site.noisy = False
port = reactor.listenTCP(0, site, interface="127.0.0.1")
agent, bodies = Agent(reactor), []
@inlineCallbacks
def get():
    answer = yield agent.request(b"GET", b"http://127.0.0.1:%d/" % port.getHost().port)
    body = yield readBody(answer)
    bodies.append(body)
finish(lambda: sorted(bodies), get(), get(), get())
"""),
    Program("callbacks", "15", "10", "account['sum']", """
account, lock = {"sum": 0}, defer.DeferredLock()
def load(_): return account["sum"]  #!
def slowly(value):
    waited = sleep()
    waited.addCallback(lambda _: value)
    return waited
def store(value, amount): account["sum"] = value + amount  #!
def pay(amount):
    made = sleep()
    made.addCallback(load)
    made.addCallback(slowly)
    made.addCallback(store, amount)
    return made
def one(amount): return lock.run(pay, amount) if is_safe else pay(amount)
finish(lambda: account["sum"], one(5), one(10))
"""),
    Program("jobs", "[2, 3, 4]", "[2, 3, 4]", "Job.number", """
class Job:
    def __init__(self, number): self.number = number
jobs, done = defer.DeferredQueue(), []
@inlineCallbacks
def worker():
    for _ in range(3):
        job = yield jobs.get()
        number = job.number  #!
        yield sleep()
        job.number = number + 1  #!
        done.append(job)
@inlineCallbacks
def giver():
    for number in (1, 2, 3):
        job = Job(number)
        if is_safe: job.number = number
        jobs.put(job)
        if not is_safe: job.number = number  #!
        yield sleep(0.01)
finish(lambda: [job.number for job in done], worker(), giver())
"""),
    Program("from a thread", "4", "any", "table['n']", """
table = {"n": 0}
def bump(): table["n"] += 1  #!
def work():
    if is_safe: threads.blockingCallFromThread(reactor, bump)
    else: bump()
@inlineCallbacks
def beside():
    for _ in range(2):
        yield sleep()
        bump()
finish(lambda: table["n"] if is_safe else "any", threads.deferToThread(work), threads.deferToThread(work), beside())
"""),
)
ASYNCIO = """
from twisted.internet import asyncioreactor
import asyncio
asyncioreactor.install()
""" + BEGIN + """
table, ready = {"n": 0, "m": 0}, Deferred()
async def of_asyncio():
    n = table["n"]  #!
    await asyncio.sleep(0.001)
    table["n"] = n + 1  #!
    if is_safe: table["m"] = 1
    return 7
@inlineCallbacks
def of_twisted():
    n = table["n"]
    yield sleep()
    table["n"] = n + 1  #!
    seven = yield Deferred.fromFuture(asyncio.ensure_future(of_asyncio()))
    m = table["m"]
    yield sleep()
    table["m"] = m + seven
    ready.callback(8)
async def waits():
    eight = await ready.asFuture(asyncio.get_running_loop())
    m = table["m"]
    await asyncio.sleep(0)
    table["m"] = m + eight
@inlineCallbacks
def run():
    waiting = asyncio.ensure_future(waits())
    if is_safe:
        yield of_twisted()
    else:
        yield defer.gatherResults([of_twisted(), Deferred.fromFuture(asyncio.ensure_future(of_asyncio()))])
    yield Deferred.fromFuture(waiting)
    print(table["m"])
    reactor.stop()
reactor.callWhenRunning(run)
reactor.run()
"""
FAULTS = """
import sys
from twisted.logger import globalLogBeginner, textFileLogObserver
globalLogBeginner.beginLoggingTo([textFileLogObserver(sys.stdout, timeFormat=None)], redirectStandardIO=False)
from twisted.internet import defer, protocol, reactor, task, threads
from twisted.internet.defer import Deferred, inlineCallbacks
from twisted.python.failure import Failure
import gc, traceback
def fail(*_): raise ValueError("no")
def sleep(): return task.deferLater(reactor, 0.001, lambda: None)
@inlineCallbacks
def deep(number):
    yield sleep()
    if number: yield deep(number - 1)
    else: fail()
async def deeper():
    await sleep()
    await deep(1)
class Fails(protocol.Protocol):
    def connectionMade(self): fail()
class Connects(protocol.ClientFactory):
    protocol, noisy = Fails, False
def show(failure, way="default"):
    print(failure.getTraceback(detail=way))
@inlineCallbacks
def main():
    for made in (deep(2), defer.ensureDeferred(deeper()), threads.deferToThread(fail), defer.maybeDeferred(fail), sleep().addCallback(fail)):
        made.addErrback(show)
        yield made
    for way in ("brief", "default"):
        made = deep(1)
        made.addErrback(show, way)
        yield made
    try: yield deep(1)
    except ValueError: print(traceback.format_exc())
    waiting = deep(0)
    waiting.cancel()
    try: yield waiting
    except defer.CancelledError as fault: print("cancelled", fault.__traceback__ is not None)
    loop = task.LoopingCall(fail)
    yield loop.start(1).addErrback(show)
    reactor.callLater(0, fail)
    reactor.callFromThread(fail)
    yield sleep()
    port = reactor.listenTCP(0, protocol.Factory.forProtocol(protocol.Protocol), interface="127.0.0.1")
    reactor.connectTCP("127.0.0.1", port.getHost().port, Connects())
    for _ in range(20): yield sleep()
    yield port.stopListening()
    lock, queue, permits = defer.DeferredLock(), defer.DeferredQueue(1, 1), defer.DeferredSemaphore(2)
    for call in (lock.release, permits.release, lambda: (queue.put(1), queue.put(2)), lambda: (queue.get(), queue.get(), queue.get())):
        try: call()
        except (AssertionError, defer.QueueOverflow, defer.QueueUnderflow) as fault: print(type(fault).__name__, fault)
    print((yield lock.run(lambda: 3)), lock.locked, (yield permits.run(lambda: 4)), permits.tokens)
    ready = Deferred()
    print(ready.called, ready.callbacks, type(ready.callbacks), vars(ready), Deferred.called if False else "")
    ready.addCallback(lambda value: value + 1)
    print(len(ready.callbacks), type(ready.callbacks[0]), ready.callbacks[0][1][1:])
    ready.callback(1)
    print(ready.called, ready.result, ready.callbacks)
    try: ready.callback(2)
    except defer.AlreadyCalledError as fault: print(type(fault))
    timer = reactor.callLater(60, fail)
    print(timer.active(), timer.called, timer.func is fail, "fail" in repr(timer), len(reactor.getDelayedCalls()) > 0)
    timer.cancel()
    Deferred().errback(ValueError("nobody sees it"))
    gc.collect()
    print(defer.inlineCallbacks, defer.Deferred.send.__qualname__, task.LoopingCall.start.__doc__ is not None, Deferred.__mro__)
    reactor.stop()
reactor.callWhenRunning(main)
reactor.run()
"""
ONE_TURN = """
busy, seen = set(), {"count": 0}
@inlineCallbacks
def work(number):
    if len(busy) < 9: busy.add(number)
    yield sleep()
    seen["count"] += 1
finish(lambda: (len(busy), seen), *(work(number) for number in range(6)))
"""
INITIAL = """
table, ready = {}, Deferred()
@inlineCallbacks
def begin():
    table["n"] = 0
    yield sleep()
    ready.callback(1)
@inlineCallbacks
def work():
    n = table["n"]
    yield sleep()
    table["n"] = n + 1
def old(_):
    n = table["n"]
    table["n"] = n + 1
def late(): table["m"] = table.get("m", 0) + 1
begun = begin()
ready.addCallback(old)
reactor.callLater(0.01, late)
reactor.callLater(0.02, late)
finish(lambda: sorted(table), begun.addCallback(lambda _: work()), sleep(0.05))
"""
MACHINES = BEGIN + """
count = {"n": 0}
class Machine:
    def begin(self):
        self.n = count["n"]
        reactor.callLater(0.001, self.end)
    def end(self):
        count["n"] = self.n + 1
for _ in range(int(sys.argv[2])): reactor.callLater(0, Machine().begin)
reactor.callLater(0.05, reactor.stop)
reactor.run()
"""
OWN_POOL = BEGIN + """
from twisted.python.threadpool import ThreadPool
class Pool(ThreadPool): pass
pool = Pool(1, 1)
pool.start()
made = threads.deferToThreadPool(reactor, pool, len, "pool")
def end(result):
    print(result)
    pool.stop()
    reactor.stop()
made.addCallback(end)
reactor.run()
"""
NO_REACTOR = """
from twisted.internet import defer, task
clock, table = task.Clock(), {"n": 0}
@defer.inlineCallbacks
def work():
    n = table["n"]  #!
    yield task.deferLater(clock, 1, lambda: None)
    table["n"] = n + 1  #!
made = [work(), work()]
clock.advance(2)
print(table, [one.called for one in made])
"""
OTHER = """
from importlib.machinery import SourceFileLoader
plain = SourceFileLoader.exec_module
def exec_module(self, module):
    plain(self, module)
    if module.__name__ == "twisted.internet.defer":
        del module.DeferredSemaphore
SourceFileLoader.exec_module = exec_module
from twisted.internet import defer
print(defer.succeed(7).result)
"""


def marked(text: str) -> list[int]:
    return [number for number, line in enumerate(text.splitlines(), 1) if line.endswith("#!")]


def told_lines(told: str) -> list[int]:
    """The lines of the races that were told, and not of what is possible."""
    found = re.findall(r"^itc_trace: race on .*\n((?:    .*\n)+)", told, re.MULTILINE)
    return sorted({int(line) for lines in found for line in re.findall(r" at \S*program\.py:(\d+)", lines)})
