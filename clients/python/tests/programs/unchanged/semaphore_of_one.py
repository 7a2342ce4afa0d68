"""A semaphore with one permit serves as a lock.

due: none
"""

import threading

gate = threading.Semaphore()
log = {"entries": 0}


def enter():
    for _ in range(2):
        gate.acquire()
        try:
            log["entries"] += 1
        finally:
            gate.release()


threads = [threading.Thread(target=enter) for _ in range(3)]
for thread in threads:
    thread.start()
for thread in threads:
    thread.join()
print(log)
