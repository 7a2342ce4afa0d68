"""Each thread's local buffer is the same default list.

due: race
thing: BUFFER or buffer
"""

import threading

BUFFER = []
local = threading.local()


def collect(word):
    local.buffer = BUFFER
    local.buffer.append(word)  # race: write
    return len(local.buffer)  # race: read


threads = [threading.Thread(target=collect, args=(word,)) for word in ("a", "b")]
for thread in threads:
    thread.start()
for thread in threads:
    thread.join()
print(len(BUFFER))
