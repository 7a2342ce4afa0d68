"""A class hands what it sets on to a base that it names, and another one to `object`, without a lock.

due: race
thing: Low.left or Low.right
"""

import threading


class Base:
    pass


class Low(Base):
    def __init__(self):
        self.left, self.right = 0, 0

    def __setattr__(self, name, value):
        if name == "left":
            Base.__setattr__(self, name, value)  # race: write
        else:
            object.__setattr__(self, name, value)  # also: write


low = Low()


def change():
    low.left = 1
    low.right = 2


threads = [threading.Thread(target=change) for _ in range(2)]
for thread in threads:
    thread.start()
for thread in threads:
    thread.join()
print(low.left + low.right)
