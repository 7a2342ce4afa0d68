"""A consumer gives up waiting for the condition, and takes what is there without its lock.

due: race
thing: tray
"""

import threading

import _baton
from itc_trace import shared

tray = shared({"bread": 0}, "tray")
baked = threading.Condition()


def bake():
    _baton.wait()
    with baked:
        tray["bread"] += 1  # race: write
        baked.notify()


baker = threading.Thread(target=bake)
baker.start()
with baked:
    baked.wait(timeout=0.01)
print(tray["bread"] in (0, 1))  # race: read
_baton.hand_on()
baker.join()
