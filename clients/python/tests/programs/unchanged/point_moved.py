"""A point is moved by one thread and drawn by another.

due: race
thing: Point.x or Point.y
"""

import threading


class Point:
    def __init__(self):
        self.x, self.y = 0, 0

    def move(self, x, y):
        self.x, self.y = self.x + x, self.y + y  # race: write

    def draw(self):
        return f"<{self.x} {self.y}>"  # race: read


point = Point()
threads = [threading.Thread(target=point.move, args=(1, 2)), threading.Thread(target=point.draw)]
for thread in threads:
    thread.start()
for thread in threads:
    thread.join()
print(point.draw())
