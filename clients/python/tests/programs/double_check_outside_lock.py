"""A double-checked configuration: the first look is outside of the lock.

due: race
thing: holder
"""

import threading

from itc_trace import shared

holder = shared({"config": None}, "holder")
lock = threading.Lock()


def load():
    return {"debug": True}


def config():
    if holder["config"] is None:  # race: read
        with lock:
            if holder["config"] is None:  # also: read
                holder["config"] = load()  # race: write
    return holder["config"]  # also: read


threads = [threading.Thread(target=config) for _ in range(2)]
for thread in threads:
    thread.start()
for thread in threads:
    thread.join()
print(config()["debug"])
