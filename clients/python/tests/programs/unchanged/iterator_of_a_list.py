"""Two threads draw from one iterator of a list.

due: race
thing: tickets
"""

import threading

tickets = iter(["a", "b", "c"])
drawn = []


def draw():
    drawn.append(next(tickets))  # race: write


threads = [threading.Thread(target=draw) for _ in range(2)]
for thread in threads:
    thread.start()
for thread in threads:
    thread.join()
print(len(drawn))
