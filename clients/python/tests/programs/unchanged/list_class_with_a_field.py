"""A subclass of list has a field beside its elements.

due: race
thing: History.dropped
"""

import threading


class History(list):
    def __init__(self):
        super().__init__()
        self.dropped = 0

    def drop(self):
        self.dropped += 1  # race: read, write


history = History()


def work():
    history.drop()


threads = [threading.Thread(target=work) for _ in range(2)]
for thread in threads:
    thread.start()
for thread in threads:
    thread.join()
print(history.dropped > 0)
