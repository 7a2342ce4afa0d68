"""A thread runs a loop once those of another thread are gone. It stands where one of these stood, and both count.

due: race
thing: Counter.total
"""

import asyncio
import gc
import os
import threading

MOST = 32


class Counter:
    def __init__(self):
        self.total = 0

    async def count(self):
        self.total += 1  # race: read, write


counters = [Counter() for _ in range(MOST)]
end, beginning = os.pipe()


def new_loops(count):
    return [asyncio.new_event_loop() for _ in range(count)]


def close(loops):
    for loop in loops:
        loop.close()


def first():
    loops = new_loops(MOST)
    for loop, counter in zip(loops, counters):
        loop.run_until_complete(counter.count())
    close(loops)
    os.write(beginning, b" ".join(b"%d" % id(loop) for loop in loops))


def second():
    places = [int(place) for place in os.read(end, 4096).split()]
    while threading.active_count() > 2:
        pass  # The loops of the first thread are there until its end.
    gc.collect()
    loops = new_loops(2 * MOST)
    one = next((loop for loop in loops if id(loop) in places), loops[0])  # By luck none stands where another stood.
    counter = counters[places.index(id(one))] if id(one) in places else counters[0]
    one.run_until_complete(counter.count())
    close(loops)


threads = [threading.Thread(target=work) for work in (first, second)]
for thread in threads:
    thread.start()
for thread in threads:
    thread.join()
