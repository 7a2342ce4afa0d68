"""Threads call one function behind functools.lru_cache, which keeps no state of its own.

due: none
"""

import functools
import threading


@functools.lru_cache(maxsize=None)
def load(name):
    parts = [name]
    parts.append(name.upper())
    return tuple(parts)


threads = [threading.Thread(target=load, args=(name,)) for name in ("a", "b", "a")]
for thread in threads:
    thread.start()
for thread in threads:
    thread.join()
print(load("a"))
