"""A method that takes the recursive lock for its statistics stands before the plain read.

due: possible
thing: document
"""

import threading

import _baton
from itc_trace import shared


class Editor:
    def __init__(self):
        self._lock = threading.RLock()
        self._accesses = 0
        self.document = shared({"text": ""}, "document")

    def _accessed(self):
        with self._lock:
            self._count(1)

    def _count(self, times):
        with self._lock:
            self._accesses += times

    def write(self, text):
        self.document["text"] = text  # race: write
        self._accessed()

    def read(self):
        self._accessed()
        return self.document["text"]  # race: read


def write_first(editor):
    editor.write("hello")
    _baton.hand_on()


def read_later(editor):
    _baton.wait()
    print(editor.read())


editor = Editor()
threads = [threading.Thread(target=write_first, args=(editor,)), threading.Thread(target=read_later, args=(editor,))]
for thread in threads:
    thread.start()
for thread in threads:
    thread.join()
