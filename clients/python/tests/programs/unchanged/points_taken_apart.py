"""Points are lists of two numbers. A thread moves one, while another sums what a loop takes apart.

due: race
thing: points[0] or points[..]
"""

import threading

points = [[0, 0], [1, 1]]


def move():
    points[0][1] = 5  # race: write


def area():
    return sum(x * y for x, y in points)  # race: read


threads = [threading.Thread(target=move), threading.Thread(target=area)]
for thread in threads:
    thread.start()
for thread in threads:
    thread.join()
