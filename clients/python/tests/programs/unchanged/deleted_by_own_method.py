"""A class deletes its fields by a method of its own under a lock, under which others ask whether they are there.

due: none
"""

import threading


class Session:
    def __init__(self):
        self.lock = threading.RLock()
        self.user = "ann"

    def __delattr__(self, name):
        with self.lock:
            super().__delattr__(name)

    def has(self, name):
        with self.lock:
            return hasattr(self, name)


session = Session()


def leave():
    del session.user


threads = [threading.Thread(target=leave), threading.Thread(target=session.has, args=("user",))]
for thread in threads:
    thread.start()
for thread in threads:
    thread.join()
print(session.has("user"))
