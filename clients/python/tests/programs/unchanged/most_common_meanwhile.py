"""One thread updates a `Counter`, and another asks it for the most common words.

due: race
thing: frequencies
"""

import threading
from collections import Counter

frequencies = Counter(["a"])


def read(words):
    frequencies.update(words)  # race: write


def top():
    return frequencies.most_common(1)  # race: read


threads = [threading.Thread(target=read, args=(["a", "b"],)), threading.Thread(target=top)]
for thread in threads:
    thread.start()
for thread in threads:
    thread.join()
print(top())
