"""A list grows by `+=` in one thread, and another one asks for its last item.

due: race
thing: lines
"""

import threading

lines = ["first"]


def write():
    global lines
    lines += ["second", "third"]  # race: write


def last():
    return lines[-1]  # race: read


threads = [threading.Thread(target=write), threading.Thread(target=last)]
for thread in threads:
    thread.start()
for thread in threads:
    thread.join()
print(last())
