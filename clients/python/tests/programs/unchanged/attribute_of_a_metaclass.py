"""A metaclass counts all objects in an attribute of its own, which another thread asks the class for.

due: race
thing: Counting.made
"""

import threading


class Counting(type):
    made = 0

    def __call__(cls, *words):
        Counting.made += 1  # race: write
        return super().__call__(*words)


class Ship(metaclass=Counting):
    pass


def look():
    return Ship.made  # race: read


threads = [threading.Thread(target=Ship), threading.Thread(target=look)]
for thread in threads:
    thread.start()
for thread in threads:
    thread.join()
print(Ship.made)
