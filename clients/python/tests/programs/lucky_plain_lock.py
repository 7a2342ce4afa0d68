"""A lock of `_thread` guards a counter, and the name beside it is read and written without it.

due: possible
thing: profile or name
"""

import _thread
import threading

import _baton
from itc_trace import touch

lock = _thread.allocate_lock()
views, name = 0, "ann"


def rename(new):
    global views, name
    touch("profile", write=True)  # race: write
    name = new  # also: write
    with lock:
        views += 1
    _baton.hand_on()


def view():
    global views
    _baton.wait()
    with lock:
        views += 1
    touch("profile")  # race: read
    print(name)  # also: read


touch("profile", write=True)
threads = [threading.Thread(target=rename, args=("bea",)), threading.Thread(target=view)]
for thread in threads:
    thread.start()
for thread in threads:
    thread.join()
