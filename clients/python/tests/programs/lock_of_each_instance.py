"""Each writer has a lock of its own, but the file's lines are one list.

due: race
thing: lines
"""

import threading

from itc_trace import shared

lines = shared({}, "lines")


class Writer:
    def __init__(self, name):
        self.name = name
        self.lock = threading.Lock()

    def write(self):
        with self.lock:
            lines["last"] = self.name  # race: write


writers = [Writer(name) for name in ("left", "right")]
threads = [threading.Thread(target=writer.write) for writer in writers]
for thread in threads:
    thread.start()
for thread in threads:
    thread.join()
print(lines["last"] in ("left", "right"))
