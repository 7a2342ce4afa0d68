"""A subclass of `LifoQueue` by another name: who gets an item comes after who put that one.

due: none
thing: step
"""

import queue
import threading

import _baton
from itc_trace import shared

STEP = object()
steps = {name: shared({}, f"step {name}") for name in ("first", "second")}


class Undo(queue.LifoQueue):
    def remember(self):
        self.put(STEP)

    def forget(self):
        return self.get()


undo = Undo()


def do(name):
    steps[name]["made"] = True
    undo.remember()


def undo_last():
    _baton.wait()
    undo.forget()
    steps["second"]["undone"] = True
    undo.forget()
    steps["first"]["undone"] = True


undoing = threading.Thread(target=undo_last)
undoing.start()
for name in steps:
    doing = threading.Thread(target=do, args=(name,))
    doing.start()
    doing.join()
_baton.hand_on()
undoing.join()
print(sorted(steps["first"]))
