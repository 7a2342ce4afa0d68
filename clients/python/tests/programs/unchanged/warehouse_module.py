"""The stock lies in a module of its own, and two threads take from it by a function there.

due: race
thing: boxes
uses: _warehouse.py
"""

import threading

import _warehouse

threads = [threading.Thread(target=_warehouse.take, args=(amount,)) for amount in (1, 2)]
for thread in threads:
    thread.start()
for thread in threads:
    thread.join()
print(_warehouse.boxes < 10)
