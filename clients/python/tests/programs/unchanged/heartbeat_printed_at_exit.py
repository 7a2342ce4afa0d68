"""A daemon thread goes on beating while a handler at exit shows the beats.

due: race
thing: beats
"""

import atexit
import threading
import time

import _baton

beats = 0


def beat():
    global beats
    while True:
        beats += 1  # race: write
        _baton.hand_on()
        time.sleep(0.02)


@atexit.register
def show():
    print(beats > 0)  # race: read


threading.Thread(target=beat, daemon=True).start()
_baton.wait()
