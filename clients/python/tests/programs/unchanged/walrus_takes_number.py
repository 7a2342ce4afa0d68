"""A loop takes numbers by a walrus, and two threads do so at once.

due: race
thing: Counter.left
"""

import threading


class Counter:
    def __init__(self, left):
        self.left = left

    def take(self):
        if (left := self.left) > 0:  # race: read
            self.left = left - 1  # race: write
        return left


counter = Counter(9)


def drain():
    while (number := counter.take()) > 7:
        assert number


threads = [threading.Thread(target=drain) for _ in range(2)]
for thread in threads:
    thread.start()
for thread in threads:
    thread.join()
print(counter.left < 9)
