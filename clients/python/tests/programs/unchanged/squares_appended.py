"""Threads append to one list, and nobody looks at it before all are joined.

due: none
"""

import threading

squares = []


def square(number):
    squares.append(number * number)


threads = [threading.Thread(target=square, args=(number,)) for number in range(4)]
for thread in threads:
    thread.start()
for thread in threads:
    thread.join()
print(sorted(squares))
