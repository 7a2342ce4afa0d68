"""Counts the words of two texts into one defaultdict.

due: race
thing: counts['the']
"""

import threading
from collections import defaultdict

counts = defaultdict(int)


def count(text):
    for word in text.split():
        counts[word] += 1  # race: read, write


threads = [threading.Thread(target=count, args=(text,)) for text in ("the cat", "the dog")]
for thread in threads:
    thread.start()
for thread in threads:
    thread.join()
print(counts["cat"])
