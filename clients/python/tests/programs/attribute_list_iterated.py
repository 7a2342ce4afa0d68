"""One thread appends to a list that an object holds, while another goes through it.

due: race
thing: feed
"""

import threading

from itc_trace import shared


class Feed:
    def __init__(self):
        self.items = []

    def add(self, item):
        self.items.append(item)  # race: write

    def total(self):
        return sum(item for item in list(self.items))  # race: read


feed = shared(Feed(), "feed")
threads = [threading.Thread(target=feed.add, args=(4,)), threading.Thread(target=feed.total)]
for thread in threads:
    thread.start()
for thread in threads:
    thread.join()
print(feed.total())
