"""A timer changes an alarm, which is read after the timer was joined.

due: none
"""

import threading


class Alarm:
    def __init__(self):
        self.rung = 0

    def ring(self):
        self.rung += 1


alarm = Alarm()
alarm.ring()
timer = threading.Timer(0.005, alarm.ring)
timer.start()
timer.join()
alarm.ring()
print(alarm.rung)
