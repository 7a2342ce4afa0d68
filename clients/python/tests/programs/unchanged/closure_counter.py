"""A function makes a counter out of a closure, and threads share it.

due: race
thing: count
"""

import threading


def make_counter():
    count = 0

    def increase():
        nonlocal count
        count += 1  # race: read, write
        return count  # also: read

    return increase


increase = make_counter()
threads = [threading.Thread(target=increase) for _ in range(3)]
for thread in threads:
    thread.start()
for thread in threads:
    thread.join()
print(increase() <= 4)
