"""A function behind functools.lru_cache enters its calls into a dict.

due: race
thing: calls
"""

import functools
import threading

calls = {"load": 0}


@functools.lru_cache(maxsize=None)
def load(name):
    calls["load"] += 1  # race: read, write
    return name.upper()


threads = [threading.Thread(target=load, args=(name,)) for name in ("a", "b")]
for thread in threads:
    thread.start()
for thread in threads:
    thread.join()
print(load("a"))
