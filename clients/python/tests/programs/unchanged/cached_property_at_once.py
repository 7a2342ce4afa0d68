"""Two threads want a cached property at the same time.

due: none
"""

import functools
import threading
import time


class Dictionary:
    def __init__(self, text):
        self.text = text
        self.lock = threading.Lock()

    @functools.cached_property
    def words(self):
        time.sleep(0.05)
        return frozenset(self.text.split())

    def has(self, word):
        with self.lock:
            return word in self.words


dictionary = Dictionary("a b c")
found = []
threads = [threading.Thread(target=lambda word: found.append(dictionary.has(word)), args=(word,)) for word in ("a", "z")]
for thread in threads:
    thread.start()
for thread in threads:
    thread.join()
print(sorted(found))
