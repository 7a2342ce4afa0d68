"""A read-write lock of a condition and a count guards a document.

due: none
"""

import threading


class ReadWriteLock:
    def __init__(self):
        self._free = threading.Condition(threading.Lock())
        self._readers = 0

    def acquire_read(self):
        with self._free:
            self._readers += 1

    def release_read(self):
        with self._free:
            self._readers -= 1
            if not self._readers:
                self._free.notify_all()

    def acquire_write(self):
        self._free.acquire()
        while self._readers > 0:
            self._free.wait()

    def release_write(self):
        self._free.release()


class Document:
    def __init__(self):
        self.lock = ReadWriteLock()
        self.text = ""

    def read(self):
        self.lock.acquire_read()
        try:
            return self.text
        finally:
            self.lock.release_read()

    def append(self, word):
        self.lock.acquire_write()
        try:
            self.text = self.text + word
        finally:
            self.lock.release_write()


document = Document()


def read():
    for _ in range(3):
        document.read()


def write():
    for word in "ab":
        document.append(word)


threads = [threading.Thread(target=one) for one in (read, write, read, write)]
for thread in threads:
    thread.start()
for thread in threads:
    thread.join()
print(len(document.read()))
