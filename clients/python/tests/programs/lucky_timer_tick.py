"""A timer ticks under a lock and then reads the schedule, which a thread changed before its own tick.

due: possible
thing: schedule
"""

import threading

import _baton
from itc_trace import shared

schedule = shared({"next": "noon"}, "schedule")
clock_lock, ticks = threading.Lock(), 0


def tick():
    global ticks
    with clock_lock:
        ticks += 1


def change():
    schedule["next"] = "night"  # race: write
    tick()
    _baton.hand_on()


def fire():
    _baton.wait()
    tick()
    print(schedule["next"])  # race: read


timer = threading.Timer(0.01, fire)
changer = threading.Thread(target=change)
timer.start()
changer.start()
timer.join()
