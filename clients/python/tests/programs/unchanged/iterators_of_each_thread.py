"""Each thread goes through one list by iterators of its own, of several kinds.

due: none
"""

import itertools
import threading

NAMES = ["ann", "bob", "eve"]
found = {}


def look(number):
    names, pairs, turns = iter(NAMES), enumerate(NAMES), itertools.cycle(NAMES)
    both = zip(NAMES, NAMES[1:])
    seen = [next(names), next(pairs), next(turns), next(both), *names]
    for pair in pairs:
        seen.append(pair)
    seen += map(str.upper, NAMES)
    found[number] = len(seen) + len(list(itertools.islice(turns, 4)))


threads = [threading.Thread(target=look, args=(number,)) for number in range(3)]
for thread in threads:
    thread.start()
for thread in threads:
    thread.join()
print(found)
