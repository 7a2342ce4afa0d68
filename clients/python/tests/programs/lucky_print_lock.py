"""A helper class prints under a lock, and two threads that count together print in between.

due: possible
thing: score
"""

import sys
import threading

import _baton
from itc_trace import shared


class Printer:
    def __init__(self, stream):
        self.stream = stream
        self.lock = threading.Lock()

    def __call__(self, *words):
        with self.lock:
            print(*words, file=self.stream)


say = Printer(sys.stdout)
score = shared({"points": 0}, "score")


def play(name):
    say(name, "plays")
    score["points"] += 1  # race: read, write
    say(name, "is done")


def play_first(name):
    play(name)
    _baton.hand_on()


def play_later(name):
    _baton.wait()
    play(name)


threads = [threading.Thread(target=play_first, args=("ann",)), threading.Thread(target=play_later, args=("bea",))]
for thread in threads:
    thread.start()
for thread in threads:
    thread.join()
