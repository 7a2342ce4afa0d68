"""Threads of `_thread` with a lock of `_thread`, which also tells when they have ended.

due: none
"""

import _thread

guard = _thread.allocate_lock()
ended = [_thread.allocate_lock() for _ in range(2)]
total = 0


def add(amount, end):
    global total
    with guard:
        total += amount
    end.release()


for amount, end in enumerate(ended, 1):
    end.acquire()
    _thread.start_new_thread(add, (amount, end))
for end in ended:
    end.acquire()
with guard:
    print(total)
