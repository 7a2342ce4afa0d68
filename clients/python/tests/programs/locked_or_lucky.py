"""A lock for the names stands beside the plain sizes: which thread is faster decides how that is told.

due: race or possible
thing: sizes
"""

import threading

from itc_trace import shared

sizes = shared({"all": 0}, "sizes")
names, lock = [], threading.Lock()


def add(name):
    with lock:
        names.append(name)
    sizes["all"] += len(name)  # race: read, write
    with lock:
        names.remove(name)


threads = [threading.Thread(target=add, args=(name,)) for name in ("ann", "bea", "cy")]
for thread in threads:
    thread.start()
for thread in threads:
    thread.join()
print(names)
