"""Both threads draw an id under a lock before they change the route, and the ids put them in order.

due: possible
thing: route
"""

import itertools
import threading

import _baton
from itc_trace import shared

route = shared({"stops": 0}, "route")
numbers, numbers_lock = itertools.count(1), threading.Lock()


def new_id():
    with numbers_lock:
        return next(numbers)


def extend():
    new_id()
    route["stops"] += 1  # race: read, write
    new_id()


def extend_first():
    extend()
    _baton.hand_on()


def extend_later():
    _baton.wait()
    extend()


threads = [threading.Thread(target=one) for one in (extend_first, extend_later)]
for thread in threads:
    thread.start()
for thread in threads:
    thread.join()
print(route["stops"])
