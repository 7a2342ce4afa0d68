"""A cached property is dropped by one thread, so that it is computed anew, while another one asks for it.

due: race
thing: Text.size
"""

import functools
import threading


class Text:
    def __init__(self, lines):
        self.lines = lines

    @functools.cached_property
    def size(self):
        return sum(map(len, self.lines))


text = Text(("a", "bc"))
print(text.size)


def drop():
    del text.size  # race: write


def look():
    return text.size  # race: read


threads = [threading.Thread(target=drop), threading.Thread(target=look)]
for thread in threads:
    thread.start()
for thread in threads:
    thread.join()
print(text.size)
