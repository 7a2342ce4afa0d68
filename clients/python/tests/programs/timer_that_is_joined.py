"""A timer writes, and the main thread reads once it has joined the timer.

due: none
thing: alarm
"""

import threading

from itc_trace import shared

alarm = shared({"rung": 0}, "alarm")


def ring():
    alarm["rung"] += 1


alarm["rung"] = 1
timer = threading.Timer(0.01, ring)
timer.start()
timer.join()
print(alarm["rung"])
