"""The main thread waits for a sign of the worker that orders nothing, looks at a count under the lock, and reads their sums.

due: possible
thing: sums
"""

import threading

import _baton
from itc_trace import shared

sums = shared({}, "sums")
lock = threading.Lock()
done = 0


def add(name, numbers):
    global done
    sums[name] = sum(numbers)  # race: write
    with lock:
        done += 1
    _baton.hand_on()


def start(name, numbers):
    threading.Thread(target=add, args=(name, numbers), daemon=True).start()


start("a", [1, 2])
_baton.wait()
with lock:
    finished = done
print(finished, sums["a"])  # race: read
