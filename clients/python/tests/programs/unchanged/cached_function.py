"""Threads call a function that `lru_cache` remembers.

due: none
"""

import functools
import threading


@functools.lru_cache(maxsize=None)
def fibonacci(number):
    return number if number < 2 else fibonacci(number - 1) + fibonacci(number - 2)


results = []


def compute():
    results.append(fibonacci(10))


threads = [threading.Thread(target=compute) for _ in range(3)]
for thread in threads:
    thread.start()
for thread in threads:
    thread.join()
print(results)
