"""A hook collects the exceptions of threads, and the main thread looks at them while threads still run.

due: race
thing: errors
"""

import threading
import time

errors = []


def collect(arguments):
    errors.append((arguments.thread.name, arguments.exc_type.__name__))  # race: write


threading.excepthook = collect


def divide(number):
    time.sleep(0.005)
    return 1 / number


threads = [threading.Thread(target=divide, args=(0,), name=f"divider-{number}") for number in range(2)]
for thread in threads:
    thread.start()
if errors:  # race: read
    print("already failed")
for thread in threads:
    thread.join()
print(len(errors))
