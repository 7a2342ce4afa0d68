"""A thread-local attribute of each thread refers to one and the same list.

due: race
thing: scratch
"""

import threading

from itc_trace import shared

DEFAULT = shared([], "scratch")
local = threading.local()


def work(number):
    local.scratch = DEFAULT
    local.scratch.clear()  # race: write
    local.scratch.append(number)  # also: write
    return sum(local.scratch)  # also: read


threads = [threading.Thread(target=work, args=(number,)) for number in range(2)]
for thread in threads:
    thread.start()
for thread in threads:
    thread.join()
print(len(DEFAULT) > 0)
