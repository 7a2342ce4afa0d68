"""A thread keeps a promise that another one waits for.

due: none
"""

import threading
from concurrent.futures import Future


class Picture:
    def __init__(self):
        self.colours = []


def paint(promise):
    picture = Picture()
    picture.colours.append("red")
    promise.set_result(picture)


promise = Future()
painter = threading.Thread(target=paint, args=(promise,))
painter.start()
picture = promise.result()
picture.colours.append("blue")
print(picture.colours)
painter.join()
