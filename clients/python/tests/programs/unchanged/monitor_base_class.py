"""A base class has the lock, and its subclasses lock by a method of the base.

due: none
"""

import threading


class Monitor:
    def __init__(self):
        self.__lock = threading.RLock()

    def __enter__(self):
        self.__lock.acquire()
        return self

    def __exit__(self, kind, error, trace):
        self.__lock.release()


class Jar(Monitor):
    def __init__(self):
        super().__init__()
        self.cookies = 0

    def add(self, count):
        with self:
            self.cookies += count
            return self.cookies


jar = Jar()
threads = [threading.Thread(target=jar.add, args=(count,)) for count in (1, 2, 3)]
for thread in threads:
    thread.start()
for thread in threads:
    thread.join()
print(jar.add(0))
