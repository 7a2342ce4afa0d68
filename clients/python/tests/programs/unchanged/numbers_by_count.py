"""Threads take numbers from one count, which gives each call another one, and enter what they did under them.

due: none
"""

import itertools
import threading

numbers = itertools.count(1)
entries = {}


class Job:
    serials = itertools.count()

    def __init__(self):
        self.number = next(Job.serials)


def work(name):
    entries[name] = next(numbers), Job().number


threads = [threading.Thread(target=work, args=(name,)) for name in "abc"]
for thread in threads:
    thread.start()
for thread in threads:
    thread.join()
print(sorted(entries.values()) == [(1, 0), (2, 1), (3, 2)] or len(entries))
