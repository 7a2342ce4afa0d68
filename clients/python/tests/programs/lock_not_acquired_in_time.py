"""A thread does not get the lock in time and goes on without it.

due: race
thing: register
"""

import threading

import _baton
from itc_trace import shared

register = shared({"sum": 0}, "register")
lock = threading.Lock()
held = threading.Event()


def slow():
    with lock:
        held.set()
        _baton.wait()
        register["sum"] += 1  # race: write


def hasty():
    held.wait()
    lock.acquire(timeout=0.01)
    print(register["sum"] in (0, 1))  # race: read
    _baton.hand_on()


threads = [threading.Thread(target=slow), threading.Thread(target=hasty)]
for thread in threads:
    thread.start()
for thread in threads:
    thread.join()
