"""A queue with room for one item serves as a lock: to put is to acquire, to get is to release.

due: none
thing: printer
"""

import queue
import threading

from itc_trace import shared

printer = shared({"pages": 0}, "printer")
slot = queue.Queue(maxsize=1)


def use():
    for _ in range(3):
        slot.put(threading.current_thread().name)
        printer["pages"] += 1
        slot.get()


threads = [threading.Thread(target=use) for _ in range(3)]
for thread in threads:
    thread.start()
for thread in threads:
    thread.join()
print(printer["pages"])
