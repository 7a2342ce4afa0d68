"""A module takes its lock from `_thread`, as old code does.

due: none
thing: sequence
"""

import _thread
import threading

from itc_trace import shared

sequence = shared({"next": 0}, "sequence")
lock = _thread.allocate_lock()


def draw():
    with lock:
        sequence["next"] += 1


threads = [threading.Thread(target=draw) for _ in range(3)]
for thread in threads:
    thread.start()
for thread in threads:
    thread.join()
print(sequence["next"])
