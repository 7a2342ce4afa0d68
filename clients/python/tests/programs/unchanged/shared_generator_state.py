"""Two generators, each in its thread, count their steps in one object.

due: race
thing: Steps.count
"""

import threading


class Steps:
    count = 0


def walk(steps, length):
    for _ in range(length):
        steps.count = steps.count + 1  # race: read, write
        yield steps


def consume(walker):
    for _ in walker:
        pass


steps = Steps()
threads = [threading.Thread(target=consume, args=(walk(steps, 2),)) for _ in range(2)]
for thread in threads:
    thread.start()
for thread in threads:
    thread.join()
print(steps.count > 0)
