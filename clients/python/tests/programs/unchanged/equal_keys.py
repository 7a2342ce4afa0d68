"""One thread writes under the key 1, and the other reads under 1.0, which is the same key.

due: race
thing: weights[1] or weights[1.0]
"""

import threading

weights = {1: "one"}


def write():
    weights[1] = "uno"  # race: write


def read():
    return weights[1.0]  # race: read


threads = [threading.Thread(target=write), threading.Thread(target=read)]
for thread in threads:
    thread.start()
for thread in threads:
    thread.join()
print(read())
