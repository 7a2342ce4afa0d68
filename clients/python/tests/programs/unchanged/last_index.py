"""One thread sets the last element by its index, and the other one by a negative index.

due: race
thing: queue_of_two[1] or queue_of_two[-1]
"""

import threading

queue_of_two = ["a", "b"]


def by_index():
    queue_of_two[1] = "c"  # race: write


def from_the_end():
    queue_of_two[-1] = "d"  # race: write


threads = [threading.Thread(target=by_index), threading.Thread(target=from_the_end)]
for thread in threads:
    thread.start()
for thread in threads:
    thread.join()
print(queue_of_two[1] in "cd")
