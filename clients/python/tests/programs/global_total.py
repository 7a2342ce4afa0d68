"""Two threads add to a module's number, which is touched by hand.

due: race
thing: total
"""

import threading

from itc_trace import touch

total = 0


def add(amount):
    global total
    touch("total")  # race: read
    value = total + amount  # also: read
    touch("total", write=True)  # race: write
    total = value  # also: write


threads = [threading.Thread(target=add, args=(amount,)) for amount in (5, 7)]
for thread in threads:
    thread.start()
for thread in threads:
    thread.join()
print(total <= 12)
