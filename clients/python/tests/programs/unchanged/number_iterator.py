"""Two threads draw from an iterator whose class is written in Python.

due: race
thing: Numbers.current
"""

import threading


class Numbers:
    def __init__(self, first):
        self.current = first

    def __iter__(self):
        return self

    def __next__(self):
        number = self.current  # race: read
        self.current = number + 1  # race: write
        return number


numbers = Numbers(1)
drawn = []


def draw():
    drawn.append(next(numbers))


threads = [threading.Thread(target=draw) for _ in range(2)]
for thread in threads:
    thread.start()
for thread in threads:
    thread.join()
print(len(drawn))
