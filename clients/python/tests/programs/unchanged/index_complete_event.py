"""Writers enter pages under a lock, the last one sets an event, and readers need no lock from then on.

due: none
"""

import threading


class Index:
    def __init__(self, expected):
        self._lock = threading.Lock()
        self._expected = expected
        self._complete = threading.Event()
        self._pages = {}

    def enter(self, number):
        with self._lock:
            self._pages[number] = f"page {number}"
            if len(self._pages) == self._expected:
                self._complete.set()

    def find(self, number):
        self._complete.wait()
        return self._pages[number]


index = Index(3)
threads = [threading.Thread(target=index.find, args=(number,)) for number in range(3)]
threads += [threading.Thread(target=index.enter, args=(number,)) for number in range(3)]
for thread in threads:
    thread.start()
for thread in threads:
    thread.join()
print(index.find(2))
