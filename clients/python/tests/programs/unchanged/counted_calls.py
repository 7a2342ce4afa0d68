"""A decorator counts the calls of a function in an attribute of its wrapper.

due: race
thing: calls
"""

import functools
import threading


def counted(function):
    @functools.wraps(function)
    def wrapper(*args):
        wrapper.calls += 1  # race: read, write
        return function(*args)

    wrapper.calls = 0
    return wrapper


@counted
def greet(name):
    return f"hello {name}"


threads = [threading.Thread(target=greet, args=(name,)) for name in ("ann", "bea")]
for thread in threads:
    thread.start()
for thread in threads:
    thread.join()
print(greet.calls <= 2)
