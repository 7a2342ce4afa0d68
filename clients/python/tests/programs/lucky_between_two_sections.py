"""Each worker adds to a plain total between two uses of a lock for something else.

due: possible
thing: total
"""

import threading

import _baton
from itc_trace import shared

total = shared({"sum": 0}, "total")
lock = threading.Lock()
begun = ended = 0


def work(amount):
    global begun, ended
    with lock:
        begun += 1
    total["sum"] += amount  # race: read, write
    with lock:
        ended += 1
    _baton.hand_on()


first = threading.Thread(target=work, args=(1,))
second = threading.Thread(target=work, args=(2,))
first.start()
_baton.wait()
second.start()
first.join()
second.join()
print(total["sum"])
