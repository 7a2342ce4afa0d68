"""A class checks each value in `__setattr__` and hands it on to its base.

due: race
thing: Tank.level
"""

import threading


class Checked:
    def __setattr__(self, name, value):
        if value < 0:
            raise ValueError(name)
        super().__setattr__(name, value)  # race: write


class Tank(Checked):
    def __init__(self):
        self.level = 5


tank = Tank()


def drain():
    tank.level = tank.level - 1  # race: read


threads = [threading.Thread(target=drain) for _ in range(2)]
for thread in threads:
    thread.start()
for thread in threads:
    thread.join()
print(tank.level)
