"""Connections lie in a `LifoQueue`, and whoever has one changes it.

due: none
"""

import contextlib
import queue
import threading


class Connection:
    def __init__(self):
        self.statements = []
        self.broken = False

    def execute(self, text):
        self.statements.append(text)
        if "fail" in text:
            self.broken = True
            raise RuntimeError(text)
        return len(self.statements)


class Pool:
    def __init__(self, size):
        self._idle = queue.LifoQueue(size)
        for _ in range(size):
            self._idle.put(Connection())

    @contextlib.contextmanager
    def lend(self):
        connection = self._idle.get()
        try:
            yield connection
        except RuntimeError:
            connection = Connection()
        finally:
            self._idle.put(connection)


pool = Pool(2)


def work(number):
    for turn in range(4):
        with pool.lend() as connection:
            connection.execute("fail" if turn == number else "select")


threads = [threading.Thread(target=work, args=(number,)) for number in range(3)]
for thread in threads:
    thread.start()
for thread in threads:
    thread.join()
print(threading.active_count())
