"""One thread tells another by a pipe of processes that its rows are there.

due: none
"""

import multiprocessing
import threading

rows = []


def give(door):
    rows.append(1)
    door.send("ready")


def take(door):
    door.recv()
    print(len(rows))


if __name__ == "__main__":
    here, there = multiprocessing.Pipe()
    threads = [threading.Thread(target=give, args=(here,)), threading.Thread(target=take, args=(there,))]
    for thread in threads:
        thread.start()
    for thread in threads:
        thread.join()
