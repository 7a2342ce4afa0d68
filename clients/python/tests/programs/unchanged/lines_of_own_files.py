"""Each thread opens a file of its own and goes through its lines. Another file is read under a lock.

due: none
"""

import os
import tempfile
import threading

lock = threading.Lock()
with tempfile.TemporaryDirectory() as folder:
    path = os.path.join(folder, "log")
    with open(path, "w") as file:
        file.write("1\n2\n3\n4\n5\n")
    totals = {}
    shared = open(path)

    def add_up(name):
        total = 0
        with open(path) as lines:
            head = int(next(lines))
            for line in lines:
                total += int(line)
        with lock:
            first = int(shared.readline()) + int(next(shared))
        totals[name] = total + first + head

    threads = [threading.Thread(target=add_up, args=(name,)) for name in "ab"]
    for thread in threads:
        thread.start()
    for thread in threads:
        thread.join()
    shared.close()
print(sum(totals.values()))
