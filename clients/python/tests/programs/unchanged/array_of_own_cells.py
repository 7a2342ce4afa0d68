"""Each thread adds to a cell of an array that no other one uses.

due: none
"""

import threading
from array import array

counts = array("l", [0, 0])


def work(number):
    counts[number] += number


threads = [threading.Thread(target=work, args=(number,)) for number in range(2)]
for thread in threads:
    thread.start()
for thread in threads:
    thread.join()
print(counts.tolist(), counts[-1])
