"""A numbering of lines is shared by two threads, each of which loops through it.

due: race
thing: numbered
"""

import threading

numbered = enumerate(["a", "b", "c", "d"])
texts = {}


def work():
    for number, line in numbered:  # race: write
        texts[number] = line.upper()


threads = [threading.Thread(target=work) for _ in range(2)]
for thread in threads:
    thread.start()
for thread in threads:
    thread.join()
print(len(texts))
