"""The counter is read under the lock, and written once the lock is free.

due: race
thing: Sequence.last
"""

import threading


class Sequence:
    def __init__(self):
        self.lock = threading.Lock()
        self.last = 0

    def next(self):
        self.lock.acquire()
        number = self.last + 1  # race: read
        self.lock.release()
        self.last = number  # race: write
        return number


sequence = Sequence()
threads = [threading.Thread(target=sequence.next) for _ in range(2)]
for thread in threads:
    thread.start()
for thread in threads:
    thread.join()
print(sequence.last in (1, 2))
