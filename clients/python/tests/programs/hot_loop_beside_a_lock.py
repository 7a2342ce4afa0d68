"""Two threads count in a locked and in a plain field by turns, some fifty times.

due: race or possible
thing: plain
"""

import threading

from itc_trace import shared

guarded = shared({"count": 0}, "guarded")
plain = shared({"count": 0}, "plain")
lock = threading.Lock()


def work():
    for _ in range(50):
        with lock:
            guarded["count"] += 1
        plain["count"] += 1  # race: read, write


threads = [threading.Thread(target=work) for _ in range(2)]
for thread in threads:
    thread.start()
for thread in threads:
    thread.join()
print(guarded["count"])
