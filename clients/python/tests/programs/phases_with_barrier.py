"""Each worker reads its neighbour's cell in one phase and writes its own in the next.

due: none
thing: cell
"""

import threading

from itc_trace import shared

COUNT = 3
cells = [shared({"alive": number % 2}, f"cell {number}") for number in range(COUNT)]
barrier = threading.Barrier(COUNT)


def live(number):
    for _ in range(2):
        neighbour = cells[(number + 1) % COUNT]["alive"]
        barrier.wait()
        cells[number]["alive"] = neighbour
        barrier.wait()


threads = [threading.Thread(target=live, args=(number,)) for number in range(COUNT)]
for thread in threads:
    thread.start()
for thread in threads:
    thread.join()
print(sum(cell["alive"] for cell in cells))
