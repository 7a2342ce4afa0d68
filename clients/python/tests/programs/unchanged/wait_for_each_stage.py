"""Stages wait at one condition until it is their turn.

due: none
"""

import threading

turn = threading.Condition()
stage, written = 0, []


def run(number):
    global stage
    with turn:
        turn.wait_for(lambda: stage == number)
    written.append(number)
    written.sort()
    with turn:
        stage += 1
        turn.notify_all()


threads = [threading.Thread(target=run, args=(number,)) for number in (2, 0, 1)]
for thread in threads:
    thread.start()
for thread in threads:
    thread.join()
print(written)
