"""A numbering was made before the threads: one goes on with it, and the other one appends to its list.

due: race
thing: lines or numbered
"""

import threading

lines = ["a", "b"]
numbered = enumerate(lines)


def follow():
    return next(numbered)  # race: read


def add():
    lines.append("c")  # race: write


threads = [threading.Thread(target=follow), threading.Thread(target=add)]
for thread in threads:
    thread.start()
for thread in threads:
    thread.join()
print(len(lines))
