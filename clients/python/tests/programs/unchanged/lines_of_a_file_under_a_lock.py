"""A class gives out the lines of a file under its lock, and closes it once nobody reads.

due: none
"""

import os
import tempfile
import threading


class Lines:
    def __init__(self, path):
        self._lock, self._file = threading.Lock(), open(path)

    def __iter__(self):
        return self

    def __next__(self):
        with self._lock:
            return next(self._file)

    def close(self):
        with self._lock:
            self._file.close()


with tempfile.TemporaryDirectory() as folder:
    path = os.path.join(folder, "log")
    with open(path, "w") as file:
        file.writelines(f"{number}\n" for number in range(9))
    lines, totals = Lines(path), []

    def work():
        totals.append(sum(int(line) for line in lines))

    threads = [threading.Thread(target=work) for _ in range(2)]
    for thread in threads:
        thread.start()
    for thread in threads:
        thread.join()
    lines.close()
print(sum(totals))
