"""A daemon thread beats until the end, and a handler at exit reads its last beat.

due: race
thing: heart
"""

import atexit
import threading
import time

import _baton
from itc_trace import shared


class Heart:
    beats = 0


heart = shared(Heart(), "heart")


def beat():
    while True:
        heart.beats = heart.beats + 1  # race: write
        _baton.hand_on()
        time.sleep(0.02)


@atexit.register
def report():
    print(heart.beats > 0)  # race: read


threading.Thread(target=beat, daemon=True).start()
_baton.wait()
