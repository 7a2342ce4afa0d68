"""Two threads have a handle. One uses it, and the other one lets go of it last, so its finalizer runs there.

due: none
"""

import threading
import time


class Handle:
    def __init__(self):
        self.uses = 0
        self.log = []
        self.is_closed = False

    def use(self):
        self.uses += 1
        self.log.append(self.uses)

    def close(self):
        self.is_closed = True
        self.log.clear()

    def __del__(self):
        """Closes what was used."""
        if self.uses:
            self.close()


def use(handles):
    handle = handles.pop()
    handle.use()


def keep(handles):
    handle = handles.pop()
    time.sleep(0.1)
    del handle


def both(handle):
    return [threading.Thread(target=work, args=([handle],)) for work in (use, keep)]


threads = both(Handle())
for thread in threads:
    thread.start()
for thread in threads:
    thread.join()
