"""A pool of connections looks whether one is free, and then takes it.

due: race
thing: Pool.free or free
"""

import threading


class Pool:
    def __init__(self, size):
        self.free = [object() for _ in range(size)]

    def take(self):
        if len(self.free) > 0:  # race: read
            return self.free.pop()  # race: write
        return None


pool = Pool(2)
threads = [threading.Thread(target=pool.take) for _ in range(2)]
for thread in threads:
    thread.start()
for thread in threads:
    thread.join()
print(len(pool.free))
