"""A decorator keeps results in a dict of its closure, and two threads ask for the same one.

due: race
thing: memo
"""

import functools
import threading

from itc_trace import shared


def memoized(function):
    known = shared({}, "memo")

    @functools.wraps(function)
    def wrapper(key):
        if key not in known:  # race: read
            known[key] = function(key)  # race: write
        return known[key]  # also: read

    return wrapper


@memoized
def square(number):
    return number * number


threads = [threading.Thread(target=square, args=(12,)) for _ in range(2)]
for thread in threads:
    thread.start()
for thread in threads:
    thread.join()
print(square(12))
