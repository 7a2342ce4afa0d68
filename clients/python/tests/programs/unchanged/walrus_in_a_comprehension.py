"""A walrus in a comprehension binds a variable of the module, which another thread reads.

due: race
thing: last
"""

import threading

last = None
names = ["ann", "bob"]


def look():
    global last
    return any((last := name) == "bob" for name in names)  # race: write


def tell():
    print(last in (None, "ann", "bob"))  # race: read


threads = [threading.Thread(target=look), threading.Thread(target=tell)]
for thread in threads:
    thread.start()
for thread in threads:
    thread.join()
