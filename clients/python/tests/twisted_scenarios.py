"""What Twisted hands over, as scenarios for `test_twisted`.

Each scenario is run twice. In the right way a task touches a thing, hands over, and another one that comes after it
touches that too. In the wrong way the first one touches it behind the handing over, so the two race.
"""

from __future__ import annotations

BEGIN = """
import functools, itc_trace, sys
REACTOR
from twisted.internet import defer, protocol, reactor, task, threads
from twisted.internet.defer import Deferred, DeferredList, DeferredLock, DeferredQueue, DeferredSemaphore, inlineCallbacks
scenarios = []
def nothing(*_): pass
def scenario(function):
    scenarios.append(function)
def sleep(seconds=0): return task.deferLater(reactor, seconds, nothing)
@inlineCallbacks
def a_while():
    for _ in range(4): yield sleep(0.001)
def aside(function):
    @inlineCallbacks
    def go():
        yield a_while()
        function()
    return go()
def together(*functions):
    return defer.gatherResults([inlineCallbacks(function)() for function in functions])
@inlineCallbacks
def run_all():
    try:
        for function in scenarios:
            for way in ("right", "wrong"):
                hit = functools.partial(itc_trace.touch, f"{function.__name__} {way}", write=True)
                before, behind = (hit, nothing) if way == "right" else (nothing, hit)
                yield inlineCallbacks(function)(before, behind, hit)
    except Exception as fault:
        print("failed", function.__name__, way, repr(fault))
    reactor.stop()
def main():
    reactor.callWhenRunning(run_all)
    reactor.run()
"""
END = """
main()
"""
COROUTINES = """
@scenario
def a_coroutine_comes_after_its_start(before, behind, after):
    @inlineCallbacks
    def other():
        yield sleep()
        after()
    before()
    made = other()
    behind()
    yield made

@scenario
def the_first_step_is_taken_at_once(before, behind, after):
    @inlineCallbacks
    def other():
        before()
        yield sleep()
        behind()
    made = other()
    after()
    yield made

@scenario
def whoever_has_the_result(before, behind, after):
    later = []
    @inlineCallbacks
    def run():
        yield sleep()
        before()
        later.append(aside(behind))
        defer.returnValue(1)
    assert (yield run()) == 1
    after()
    yield later[0]

@scenario
def whoever_has_the_result_later(before, behind, after):
    later = []
    @inlineCallbacks
    def run():
        yield sleep()
        before()
        later.append(aside(behind))
    made = run()
    yield a_while()
    yield made
    after()
    yield later[0]

@scenario
def whoever_catches_its_fault(before, behind, after):
    later = []
    @inlineCallbacks
    def run():
        yield sleep()
        before()
        later.append(aside(behind))
        raise ValueError("no")
    try: yield run()
    except ValueError: after()
    yield later[0]

@scenario
def a_coroutine_that_is_ended_at_once(before, behind, after):
    later = []
    @inlineCallbacks
    def run():
        before()
        later.append(aside(behind))
        return 1
        yield
    made = run()
    after()
    yield made
    yield later[0]

@scenario
def a_coroutine_of_the_language(before, behind, after):
    later = []
    async def run():
        await sleep()
        before()
        later.append(aside(behind))
        return 1
    assert (yield defer.ensureDeferred(run())) == 1
    after()
    yield later[0]

@scenario
def one_that_is_made_a_deferred(before, behind, after):
    async def other():
        await sleep()
        after()
    before()
    made = Deferred.fromCoroutine(other())
    behind()
    yield made

@scenario
def what_a_coroutine_awaits(before, behind, after):
    ready = Deferred()
    @inlineCallbacks
    def one():
        yield a_while()
        before()
        ready.callback(1)
        behind()
    async def other():
        await sleep()
        assert await ready == 1
        after()
    yield defer.gatherResults([one(), defer.ensureDeferred(other())])

@scenario
def what_a_coroutine_awaits_that_is_there(before, behind, after):
    ready = Deferred()
    @inlineCallbacks
    def one():
        yield sleep()
        before()
        ready.callback(1)
        yield None
        behind()
    async def other():
        await a_while()
        assert await ready == 1
        after()
    yield defer.gatherResults([one(), defer.ensureDeferred(other())])

@scenario
def a_coroutine_that_is_cancelled(before, behind, after):
    @inlineCallbacks
    def run():
        yield sleep()
        try: yield sleep(60)
        except defer.CancelledError: after()
    made = run()
    yield a_while()
    before()
    made.cancel()
    behind()
    yield made
"""
DEFERREDS = """
@scenario
def a_deferred_that_is_waited_for(before, behind, after):
    ready = Deferred()
    def one():
        yield a_while()
        before()
        ready.callback(1)
        behind()
    def other():
        yield sleep()
        assert (yield ready) == 1
        after()
    yield together(other, one)

@scenario
def a_deferred_that_is_fired_already(before, behind, after):
    ready = Deferred()
    def one():
        yield sleep()
        before()
        ready.callback(1)
        behind()
        yield None
    def other():
        yield a_while()
        yield ready
        after()
    yield together(one, other)

@scenario
def a_failure(before, behind, after):
    ready = Deferred()
    def one():
        yield a_while()
        before()
        ready.errback(ValueError(1))
        behind()
    def other():
        yield sleep()
        try: yield ready
        except ValueError: after()
    yield together(other, one)

@scenario
def a_deferred_that_is_seen_called(before, behind, after):
    ready = Deferred()
    def one():
        yield sleep()
        before()
        ready.callback(1)
        behind()
        yield None
    def other():
        yield a_while()
        assert ready.called
        after()
    yield together(one, other)

@scenario
def a_deferred_that_is_cancelled(before, behind, after):
    ready = Deferred()
    def one():
        yield a_while()
        before()
        ready.cancel()
        behind()
    def other():
        yield sleep()
        try: yield ready
        except defer.CancelledError: after()
    yield together(other, one)

@scenario
def a_callback_behind_who_fires(before, behind, after):
    ready = Deferred()
    def one():
        yield a_while()
        before()
        ready.callback(1)
        behind()
    def other():
        yield sleep()
        ready.addCallback(lambda _: after())
        yield None
    yield together(other, one)

@scenario
def a_callback_behind_who_adds_it(before, behind, after):
    ready = Deferred()
    def one():
        yield sleep()
        before()
        ready.addCallback(lambda _: after())
        behind()
        yield None
    def other():
        yield a_while()
        ready.callback(1)
    yield together(one, other)

@scenario
def a_callback_that_is_added_late(before, behind, after):
    ready = Deferred()
    def one():
        yield sleep()
        before()
        ready.callback(1)
        behind()
        yield None
    def other():
        yield a_while()
        ready.addCallback(lambda _: after())
    yield together(one, other)

@scenario
def an_errback(before, behind, after):
    ready = Deferred()
    def one():
        yield a_while()
        before()
        ready.errback(ValueError(1))
        behind()
    def other():
        yield sleep()
        ready.addErrback(lambda _: after())
        yield None
    yield together(other, one)

@scenario
def one_callback_behind_another(before, behind, after):
    ready, later = Deferred(), []
    def first(_):
        before()
        later.append(aside(behind))
    def one():
        yield sleep()
        ready.addCallback(first)
    def other():
        yield a_while()
        ready.addCallback(lambda _: after())
    def another():
        for _ in range(3): yield a_while()
        ready.callback(1)
    yield together(one, other, another)
    yield later[0]

@scenario
def whoever_waits_behind_a_callback(before, behind, after):
    ready, later = Deferred(), []
    def first(_):
        before()
        later.append(aside(behind))
    def one():
        yield sleep()
        yield sleep()
        ready.addCallback(first)
        yield ready
        after()
    def other():
        yield a_while()
        ready.callback(1)
    yield together(one, other)
    yield later[0]

@scenario
def a_callback_that_gives_a_deferred(before, behind, after):
    ready, inner = Deferred(), Deferred()
    def one():
        yield sleep()
        yield sleep()
        ready.addCallback(lambda _: inner)
        yield ready
        after()
    def other():
        yield a_while()
        ready.callback(1)
    def another():
        for _ in range(3): yield a_while()
        before()
        inner.callback(1)
        behind()
    yield together(one, other, another)

@scenario
def a_callback_that_gives_one_that_is_fired(before, behind, after):
    ready, inner = Deferred(), Deferred()
    def one():
        yield sleep()
        yield sleep()
        ready.addCallback(lambda _: inner)
        yield ready
        after()
    def other():
        for _ in range(3): yield a_while()
        ready.callback(1)
    def another():
        yield sleep()
        before()
        inner.callback(1)
        behind()
        yield None
    yield together(one, other, another)

@scenario
def a_deferred_that_is_chained(before, behind, after):
    first, second = Deferred(), Deferred()
    first.chainDeferred(second)
    def one():
        yield a_while()
        before()
        first.callback(1)
        behind()
    def other():
        yield sleep()
        yield second
        after()
    yield together(other, one)

@scenario
def all_that_are_gathered(before, behind, after):
    made = [Deferred() for _ in range(3)]
    def one():
        yield a_while()
        before()
        made[1].callback(1)
        behind()
    def another():
        for _ in range(3): yield a_while()
        made[0].callback(1)
        made[2].callback(1)
    def other():
        yield sleep()
        yield defer.gatherResults(made)
        after()
    yield together(other, one, another)

@scenario
def a_list_of_deferreds(before, behind, after):
    made = [Deferred() for _ in range(3)]
    def one():
        yield a_while()
        before()
        made[0].errback(ValueError(1))
        behind()
    def another():
        for _ in range(3): yield a_while()
        made[1].callback(1)
        made[2].callback(1)
    def other():
        yield sleep()
        yield DeferredList(made, consumeErrors=True)
        after()
    yield together(other, one, another)

@scenario
def the_first_one_of_a_list(before, behind, after):
    made = [Deferred() for _ in range(2)]
    def one():
        yield a_while()
        before()
        made[1].callback(1)
        behind()
    def other():
        yield sleep()
        yield DeferredList(made, fireOnOneCallback=True)
        after()
    yield together(other, one)

@scenario
def a_deferred_that_goes_on(before, behind, after):
    ready = Deferred()
    ready.pause()
    ready.callback(1)
    def one():
        yield a_while()
        before()
        ready.unpause()
        behind()
    def other():
        yield sleep()
        yield ready
        after()
    yield together(other, one)
"""
REACTOR = """
@scenario
def a_call_later(before, behind, after):
    done = Deferred()
    def call():
        after()
        done.callback(1)
    before()
    reactor.callLater(0.001, call)
    behind()
    yield done

@scenario
def what_is_deferred(before, behind, after):
    before()
    made = task.deferLater(reactor, 0.001, after)
    behind()
    yield made

@scenario
def whoever_waits_for_what_is_deferred(before, behind, after):
    later = []
    def call():
        before()
        later.append(aside(behind))
    yield task.deferLater(reactor, 0.001, call)
    after()
    yield later[0]

@scenario
def a_call_of_another_clock(before, behind, after):
    clock = task.Clock()
    def one():
        yield sleep()
        before()
        clock.callLater(1, after)
        behind()
        yield None
    def other():
        yield a_while()
        clock.advance(2)
    yield together(one, other)

@scenario
def a_looping_call(before, behind, after):
    loop = task.LoopingCall(lambda: after())
    before()
    loop.start(0.001, now=False)
    behind()
    yield a_while()
    loop.stop()

@scenario
def one_of_its_calls_behind_another(before, behind, after):
    calls, later = [], []
    def call():
        calls.append(1)
        if len(calls) == 1:
            before()
            later.append(aside(behind))
        elif len(calls) == 2:
            after()
            loop.stop()
    loop = task.LoopingCall(call)
    yield loop.start(0.001)
    yield later[0]

@scenario
def whoever_waits_for_its_end(before, behind, after):
    calls, later = [], []
    def call():
        calls.append(1)
        if len(calls) == 2:
            before()
            later.append(aside(behind))
            loop.stop()
    loop = task.LoopingCall(call)
    yield loop.start(0.001)
    after()
    yield later[0]

@scenario
def whoever_stops_it(before, behind, after):
    later = []
    def call():
        if not later:
            before()
            later.append(aside(behind))
    loop = task.LoopingCall(call)
    def one():
        loop.start(0.001, now=False)
        yield None
    def other():
        while not later: yield sleep(0.001)
        loop.stop()
        after()
    yield together(one, other)
    yield later[0]

@scenario
def a_task_that_cooperates(before, behind, after):
    def steps():
        yield None
        after()
    before()
    made = task.cooperate(steps())
    behind()
    yield made.whenDone()

@scenario
def whoever_asks_for_such_a_task_later(before, behind, after):
    later = []
    def steps():
        yield None
        before()
        later.append(aside(behind))
    made = task.cooperate(steps())
    yield a_while()
    yield a_while()
    yield made.whenDone()
    after()
    yield later[0]

@scenario
def a_task_that_waits_for_a_deferred(before, behind, after):
    ready = Deferred()
    def steps():
        yield ready
        after()
    def one():
        yield a_while()
        before()
        ready.callback(1)
        behind()
    def other(): yield task.cooperate(steps()).whenDone()
    yield together(other, one)

@scenario
def whoever_waits_for_such_a_task(before, behind, after):
    later = []
    def steps():
        yield None
        before()
        later.append(aside(behind))
    yield task.cooperate(steps()).whenDone()
    after()
    yield later[0]
"""
THREADS = """
@scenario
def a_function_in_a_thread(before, behind, after):
    before()
    made = threads.deferToThread(after)
    behind()
    yield made

@scenario
def what_a_thread_has_done(before, behind, after):
    later = aside(behind)
    yield threads.deferToThread(before)
    after()
    yield later

@scenario
def what_a_thread_has_failed_at(before, behind, after):
    later = aside(behind)
    def fail():
        before()
        raise ValueError(1)
    try: yield threads.deferToThread(fail)
    except ValueError: after()
    yield later

@scenario
def a_call_in_a_thread(before, behind, after):
    done = Deferred()
    def call():
        after()
        reactor.callFromThread(done.callback, 1)
    before()
    reactor.callInThread(call)
    behind()
    yield done

@scenario
def a_call_from_a_thread(before, behind, after):
    done = Deferred()
    def call():
        after()
        done.callback(1)
    def work():
        before()
        reactor.callFromThread(call)
        behind()
    yield threads.deferToThread(work)
    yield done

@scenario
def a_thread_that_waits_for_a_call(before, behind, after):
    later = []
    @inlineCallbacks
    def call():
        yield sleep()
        before()
        later.append(aside(behind))
    def work():
        threads.blockingCallFromThread(reactor, call)
        after()
    yield threads.deferToThread(work)
    yield later[0]

@scenario
def a_call_that_a_thread_waits_for(before, behind, after):
    later = []
    def call():
        after()
    def work():
        before()
        threads.blockingCallFromThread(reactor, call)
    other = threads.deferToThread(behind)
    yield threads.deferToThread(work)
    yield other

@scenario
def a_pool_of_the_program(before, behind, after):
    from twisted.python.threadpool import ThreadPool
    pool = ThreadPool(1, 2)
    pool.start()
    before()
    made = threads.deferToThreadPool(reactor, pool, after)
    behind()
    yield made
    pool.stop()

@scenario
def what_a_pool_calls_with_the_result(before, behind, after):
    from twisted.python.threadpool import ThreadPool
    pool, done, later = ThreadPool(1, 2), Deferred(), aside(behind)
    pool.start()
    def told(is_good, result):
        after()
        reactor.callFromThread(done.callback, 1)
    pool.callInThreadWithCallback(told, before)
    yield done
    pool.stop()
    yield later
"""
ORDERS = """
@scenario
def a_permit_that_is_waited_for(before, behind, after):
    permits = DeferredSemaphore(2)
    yield permits.acquire()
    yield permits.acquire()
    def one():
        yield a_while()
        before()
        permits.release()
        behind()
    def other():
        yield sleep()
        yield permits.acquire()
        after()
    yield together(other, one)

@scenario
def a_permit_that_is_there(before, behind, after):
    permits = DeferredSemaphore(2)
    yield permits.acquire()
    yield permits.acquire()
    def one():
        yield sleep()
        before()
        permits.release()
        behind()
        yield None
    def other():
        yield a_while()
        yield permits.acquire()
        after()
    yield together(one, other)

@scenario
def an_item_that_is_waited_for(before, behind, after):
    items = DeferredQueue()
    def one():
        yield a_while()
        before()
        items.put(1)
        behind()
    def other():
        yield sleep()
        assert (yield items.get()) == 1
        after()
    yield together(other, one)

@scenario
def an_item_that_lies_in_a_queue(before, behind, after):
    items = DeferredQueue()
    def one():
        yield sleep()
        before()
        items.put(1)
        behind()
        yield None
    def other():
        yield a_while()
        assert (yield items.get()) == 1
        after()
    yield together(one, other)

@scenario
def the_second_item_of_two_tasks(before, behind, after):
    items = DeferredQueue()
    def first():
        items.put(0)
        yield None
    def one():
        yield sleep(0.001)
        before()
        items.put(1)
        behind()
    def other():
        for _ in range(3): yield a_while()
        yield items.get()
        yield items.get()
        after()
    yield together(first, one, other)
"""
CONNECTIONS = """
class Line(protocol.Protocol):
    def connectionMade(self): self.factory.made(self)
    def dataReceived(self, data): self.factory.got(self, data)
    def connectionLost(self, reason): self.factory.lost(self)
class Lines(protocol.Factory):
    protocol, noisy = Line, False
    def __init__(self, made=nothing, got=nothing, lost=nothing): self.made, self.got, self.lost = made, got, lost
class Calls(protocol.ClientFactory):
    protocol, noisy = Line, False
    def __init__(self, made=nothing, got=nothing, lost=nothing): self.made, self.got, self.lost = made, got, lost
def listen(factory): return reactor.listenTCP(0, factory, interface="127.0.0.1")
def connect(port, factory): return reactor.connectTCP("127.0.0.1", port.getHost().port, factory)
@inlineCallbacks
def close(port, connection):
    connection.disconnect()
    yield port.stopListening()

@scenario
def handlers_behind_who_listens(before, behind, after):
    done = Deferred()
    def made(line):
        after()
        done.callback(1)
    before()
    port = listen(Lines(made))
    behind()
    connection = connect(port, Calls())
    yield done
    yield close(port, connection)

@scenario
def handlers_behind_who_connects(before, behind, after):
    done = Deferred()
    def made(line):
        after()
        done.callback(1)
    port = listen(Lines())
    before()
    connection = connect(port, Calls(made))
    behind()
    yield done
    yield close(port, connection)

@scenario
def one_handler_behind_another(before, behind, after):
    done, later = Deferred(), []
    def made(line):
        before()
        later.append(aside(behind))
    def got(line, data):
        after()
        done.callback(1)
    port = listen(Lines(made, got))
    connection = connect(port, Calls(lambda line: line.transport.write(b"line")))
    yield done
    yield close(port, connection)
    yield later[0]

@scenario
def the_end_of_a_connection(before, behind, after):
    done, later = Deferred(), []
    def got(line, data):
        before()
        later.append(aside(behind))
        line.transport.abortConnection()
    def lost(line):
        after()
        done.callback(1)
    port = listen(Lines(nothing, got, lost))
    connection = connect(port, Calls(lambda line: line.transport.write(b"line")))
    yield done
    yield close(port, connection)
    yield later[0]

@scenario
def who_waits_for_a_handler(before, behind, after):
    done = Deferred()
    def got(line, data):
        before()
        done.callback(data)
        behind()
    port = listen(Lines(nothing, got))
    connection = connect(port, Calls(lambda line: line.transport.write(b"line")))
    yield done
    after()
    yield close(port, connection)
"""
NO_ORDERS = """
@scenario
def coroutines_of_one_reactor(before, behind, after):
    def one():
        yield sleep()
        before(); behind()
        yield None
    def other():
        yield a_while()
        after()
    yield together(one, other)

@scenario
def an_item_for_another(before, behind, after):
    items = DeferredQueue()
    def one():
        yield sleep()
        items.put(1)
        before(); behind()
        yield None
    def other():
        yield a_while()
        items.put(2)
        after()
    yield together(one, other)

@scenario
def another_permit(before, behind, after):
    permits = DeferredSemaphore(2)
    yield permits.acquire()
    yield permits.acquire()
    def first():
        yield a_while()
        before(); behind()
        permits.release()
    def one():
        for _ in range(2): yield a_while()
        permits.release()
    def taker():
        yield sleep()
        yield permits.acquire()
    def other():
        yield sleep()
        yield permits.acquire()
        after()
    yield together(taker, other, first, one)

@scenario
def who_fires_and_who_was_waiting(before, behind, after):
    ready = Deferred()
    def one():
        yield a_while()
        ready.callback(1)
        before(); behind()
    def other():
        yield sleep()
        yield ready
        after()
    yield together(other, one)

@scenario
def two_connections(before, behind, after):
    done, lines = DeferredQueue(), []
    def made(line):
        lines.append(line)
        if len(lines) == 1:
            before(); behind()
        else:
            after()
        done.put(1)
    port = listen(Lines(made))
    first = connect(port, Calls())
    yield done.get()
    second = connect(port, Calls())
    yield done.get()
    first.disconnect()
    yield close(port, second)

@scenario
def two_calls_in_threads(before, behind, after):
    def work():
        before(); behind()
    made = [threads.deferToThread(work), threads.deferToThread(after)]
    yield defer.gatherResults(made)

@scenario
def the_first_of_a_list_beside_the_others(before, behind, after):
    made = [Deferred() for _ in range(2)]
    def one():
        yield a_while()
        made[1].callback(1)
    def another():
        yield sleep()
        before(); behind()
        yield a_while()
        yield a_while()
        made[0].callback(1)
    def other():
        yield sleep()
        yield DeferredList(made, fireOnOneCallback=True)
        after()
    yield together(other, one, another)
"""
LOCKS = """
def sell(lock, name, is_in):
    yield lock.acquire()
    if is_in: itc_trace.touch(name, write=True)
    yield sleep()
    lock.release()
    if not is_in: itc_trace.touch(name, write=True)
def later(lock, name, is_in):
    yield sleep(0.02)
    yield lock.acquire()
    if is_in: itc_trace.touch(name, write=True)
    lock.release()
    if not is_in: itc_trace.touch(name, write=True)
def before(lock, name, is_in):
    yield sleep()
    itc_trace.touch(name, write=True)
    yield lock.acquire()
    lock.release()
def run(lock, name, is_in):
    yield lock.run(touch_slowly if is_in else touch_at_once, name)
@inlineCallbacks
def touch_slowly(name):
    itc_trace.touch(name, write=True)
    yield sleep()
def touch_at_once(name): itc_trace.touch(name, write=True)
def go(function, *words): return inlineCallbacks(function)(*words)
@inlineCallbacks
def run_all():
    try:
        for kind, words in ((DeferredLock, ()), (DeferredSemaphore, (1,))):
            lock, name = kind(*words), kind.__name__
            yield defer.gatherResults([*(go(sell, lock, f"{name} in", True) for _ in range(3)), go(later, lock, f"{name} in", True)])
            yield defer.gatherResults([go(run, lock, f"{name} run", number % 2) for number in range(6)])
            yield defer.gatherResults([go(before, lock, f"{name} out", False), go(later, lock, f"{name} out", False)])
    except Exception as fault:
        print("failed", repr(fault))
    reactor.stop()
"""
