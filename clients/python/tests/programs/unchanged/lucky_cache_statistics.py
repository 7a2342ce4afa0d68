"""The hits of a cache are counted under a lock, the cache itself is not guarded.

due: possible
thing: cache['logo']
"""

import threading

import _baton

cache = {"logo": b"old"}
hits, hits_lock = 0, threading.Lock()


def hit():
    global hits
    with hits_lock:
        hits += 1


def replace():
    cache["logo"] = b"new"  # race: write
    hit()
    _baton.hand_on()


def show():
    _baton.wait()
    hit()
    return cache["logo"]  # race: read


threads = [threading.Thread(target=replace), threading.Thread(target=show)]
for thread in threads:
    thread.start()
for thread in threads:
    thread.join()
print(hits)
