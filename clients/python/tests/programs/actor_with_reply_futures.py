"""All state belongs to one thread, which others ask by a queue and futures.

due: none
thing: bank
"""

import queue
import threading
from concurrent.futures import Future

from itc_trace import shared


class Actor(threading.Thread):
    def __init__(self):
        super().__init__(daemon=True)
        self.inbox = queue.Queue()
        self.bank = shared({}, "bank")

    def run(self):
        while (asked := self.inbox.get()) is not None:
            name, amount, reply = asked
            self.bank[name] = self.bank.get(name, 0) + amount
            reply.set_result(self.bank[name])

    def deposit(self, name, amount):
        reply = Future()
        self.inbox.put((name, amount, reply))
        return reply.result()


actor = Actor()
actor.start()
threads = [threading.Thread(target=actor.deposit, args=("ann", amount)) for amount in (1, 2, 3)]
for thread in threads:
    thread.start()
for thread in threads:
    thread.join()
print(actor.deposit("ann", 0))
actor.inbox.put(None)
actor.join()
print(actor.bank["ann"])
