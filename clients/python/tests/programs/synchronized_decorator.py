"""A decorator gives a function a lock, and holds it at each call.

due: none
thing: numbers
"""

import functools
import threading

from itc_trace import shared

numbers = shared([], "numbers")


def synchronized(function):
    lock = threading.Lock()

    @functools.wraps(function)
    def wrapper(*args, **kwargs):
        with lock:
            return function(*args, **kwargs)

    return wrapper


@synchronized
def draw():
    numbers.append(len(numbers))
    return numbers[-1]


threads = [threading.Thread(target=draw) for _ in range(4)]
for thread in threads:
    thread.start()
for thread in threads:
    thread.join()
print(numbers)
