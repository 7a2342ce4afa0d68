"""Workers go on until an event is set, and count under a lock.

due: none
thing: work
"""

import threading
import time

from itc_trace import shared

done = shared({"units": 0}, "work")
lock, stop = threading.Lock(), threading.Event()


def work():
    while not stop.is_set():
        with lock:
            done["units"] += 1
        time.sleep(0.002)


threads = [threading.Thread(target=work) for _ in range(2)]
for thread in threads:
    thread.start()
time.sleep(0.02)
stop.set()
for thread in threads:
    thread.join()
print(done["units"] > 0)
