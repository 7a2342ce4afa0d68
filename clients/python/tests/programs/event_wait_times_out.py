"""A reader waits for an event with a timeout, and does not look whether it was set.

due: race
thing: answer
"""

import threading

import _baton
from itc_trace import shared

answer = shared({"text": ""}, "answer")
arrived = threading.Event()


def ask():
    _baton.wait()
    answer["text"] = "yes"  # race: write
    arrived.set()


asker = threading.Thread(target=ask)
asker.start()
arrived.wait(timeout=0.01)
print(answer["text"] in ("", "yes"))  # race: read
_baton.hand_on()
asker.join()
