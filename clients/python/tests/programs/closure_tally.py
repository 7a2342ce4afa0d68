"""Nested functions count in a variable of the function around them.

due: race
thing: tally
"""

import threading

from itc_trace import touch


def poll(votes):
    tally = 0

    def vote():
        nonlocal tally
        touch("tally")  # race: read
        touch("tally", write=True)  # race: write
        tally += 1  # also: read, write

    threads = [threading.Thread(target=vote) for _ in range(votes)]
    for thread in threads:
        thread.start()
    for thread in threads:
        thread.join()
    touch("tally")
    return tally


print(poll(2) <= 2)
