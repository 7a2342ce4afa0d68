"""A bounded semaphore with two permits does not guard the till.

due: race
thing: Till.cash
"""

import threading


class Till:
    def __init__(self):
        self.gate = threading.BoundedSemaphore(2)
        self.cash = 0

    def pay(self, amount):
        with self.gate:
            self.cash = self.cash + amount  # race: read, write


till = Till()
threads = [threading.Thread(target=till.pay, args=(amount,)) for amount in (5, 6)]
for thread in threads:
    thread.start()
for thread in threads:
    thread.join()
print(till.cash > 0)
