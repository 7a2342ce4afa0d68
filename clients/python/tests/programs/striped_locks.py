"""A map of stripes: the hash of a key decides which lock and which part it belongs to.

due: none
thing: stripe
"""

import threading

from itc_trace import shared


class StripedMap:
    def __init__(self, count):
        self._locks = [threading.Lock() for _ in range(count)]
        self._parts = [shared({}, f"stripe {number}") for number in range(count)]

    def add(self, key, amount):
        number = key % len(self._parts)
        with self._locks[number]:
            self._parts[number][key] = self._parts[number].get(key, 0) + amount

    def sum(self):
        total = 0
        for lock, part in zip(self._locks, self._parts):
            with lock:
                total += sum(part.values())
        return total


striped = StripedMap(3)


def fill():
    for key in range(6):
        striped.add(key, 1)


threads = [threading.Thread(target=fill), threading.Thread(target=fill), threading.Thread(target=striped.sum)]
for thread in threads:
    thread.start()
for thread in threads:
    thread.join()
print(striped.sum())
