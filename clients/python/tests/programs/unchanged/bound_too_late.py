"""Lambdas in a loop share the variable of the loop, and all fill the cell that it says at the end.

due: race
thing: cells[2]
"""

import threading

cells = [0] * 3


def works():
    return [lambda: cells.__setitem__(number, number) for number in range(3)]  # race: write


threads = [threading.Thread(target=work) for work in works()]
for thread in threads:
    thread.start()
for thread in threads:
    thread.join()
print(cells)
