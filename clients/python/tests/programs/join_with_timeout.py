"""The main thread joins with a timeout that is too short, and reads all the same.

due: race
thing: page
"""

import threading

import _baton
from itc_trace import shared

page = shared({"size": 0}, "page")


def load():
    _baton.wait()
    page["size"] = 512  # race: write


loader = threading.Thread(target=load)
loader.start()
loader.join(timeout=0.01)
print(page["size"] in (0, 512))  # race: read
_baton.hand_on()
loader.join()
