"""A class method counts in the class that it is called for, and each thread has a class of its own.

due: none
"""

import threading


class Shape:
    count = 0

    @classmethod
    def add(cls):
        cls.count += 1


class Square(Shape):
    count = 0


class Circle(Shape):
    count = 0


threads = [threading.Thread(target=kind.add) for kind in (Square, Circle)]
for thread in threads:
    thread.start()
for thread in threads:
    thread.join()
print(Square.count, Circle.count, Shape.count)
