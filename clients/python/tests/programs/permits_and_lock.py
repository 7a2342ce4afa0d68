"""A semaphore counts the free desks, and a lock guards the list of them.

due: none
thing: desks
"""

import threading

from itc_trace import shared


class Office:
    def __init__(self, count):
        self.permits = threading.BoundedSemaphore(count)
        self.lock = threading.Lock()
        self.desks = shared(list(range(count)), "desks")

    def sit(self):
        with self.permits:
            with self.lock:
                desk = self.desks.pop()
            with self.lock:
                self.desks.append(desk)


office = Office(2)
threads = [threading.Thread(target=office.sit) for _ in range(4)]
for thread in threads:
    thread.start()
for thread in threads:
    thread.join()
print(sorted(office.desks))
