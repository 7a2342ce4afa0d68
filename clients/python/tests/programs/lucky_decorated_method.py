"""A decorator locks the methods that count, and the method that resets was forgotten.

due: possible
thing: window
"""

import functools
import threading

import _baton
from itc_trace import shared


def locked(method):
    @functools.wraps(method)
    def wrapper(self, *args):
        with self.guard:
            return method(self, *args)

    return wrapper


class Window:
    def __init__(self):
        self.guard = threading.Lock()
        self.state = shared({"hits": 0}, "window")

    @locked
    def hit(self):
        self.state["hits"] += 1  # race: write

    @locked
    def name(self):
        return "window"

    def reset(self):
        self.state["hits"] = 0  # race: write


def hit_first(window):
    window.hit()
    _baton.hand_on()


def reset_later(window):
    _baton.wait()
    window.name()
    window.reset()


window = Window()
threads = [threading.Thread(target=hit_first, args=(window,)), threading.Thread(target=reset_later, args=(window,))]
for thread in threads:
    thread.start()
for thread in threads:
    thread.join()
print(window.state["hits"])
