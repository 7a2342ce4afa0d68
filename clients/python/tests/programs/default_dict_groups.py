"""Two threads group words by their length in a defaultdict, and the second reads the groups.

due: race
thing: groups
"""

import threading
from collections import defaultdict

from itc_trace import shared

groups = shared(defaultdict(list), "groups")


def group(words):
    for word in words:
        groups[len(word)].append(word)  # race: write


def look():
    print(len(groups.get(3, ())) <= 2)  # race: read


threads = [threading.Thread(target=group, args=(["one", "two"],)), threading.Thread(target=look)]
for thread in threads:
    thread.start()
for thread in threads:
    thread.join()
