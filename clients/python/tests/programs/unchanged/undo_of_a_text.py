"""A text and its history are two fields, of which only the history is changed under the lock.

due: race
thing: Text.value
"""

import threading


class Text:
    def __init__(self):
        self.lock = threading.RLock()
        self.value = ""
        self.history = []

    def set(self, value):
        before, self.value = self.value, value  # race: read, write
        with self.lock:
            self.history.append(before)


text = Text()
threads = [threading.Thread(target=text.set, args=(value,)) for value in ("a", "b")]
for thread in threads:
    thread.start()
for thread in threads:
    thread.join()
print(len(text.history))
