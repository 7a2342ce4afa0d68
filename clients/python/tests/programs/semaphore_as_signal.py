"""A semaphore without permits says how many results lie ready.

due: none
thing: slot
"""

import threading

from itc_trace import shared

slots = [shared({}, f"slot {number}") for number in range(3)]
ready = threading.Semaphore(0)


def produce():
    for slot in slots:
        slot["value"] = 1
        ready.release()


def consume():
    for slot in slots:
        ready.acquire()
        slot["value"] += 1


threads = [threading.Thread(target=consume), threading.Thread(target=produce)]
for thread in threads:
    thread.start()
for thread in threads:
    thread.join()
print(sum(slot["value"] for slot in slots))
