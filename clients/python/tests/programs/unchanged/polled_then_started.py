"""The next thread is started once the one before is seen to be over.

due: none
"""

import threading
import time


class Tally:
    def __init__(self):
        self.count = 0


tally = Tally()


def work():
    tally.count += 1


for _ in range(3):
    thread = threading.Thread(target=work)
    thread.start()
    while thread.is_alive():
        time.sleep(0.001)
print(tally.count)
