"""One thread tells another by a pipe of processes that its rows are there, before they are.

due: race
thing: rows
"""

import multiprocessing
import threading

rows = []


def give(door):
    door.send("ready")
    rows.append(1)  # race: write


def take(door):
    door.recv()
    print(len(rows) in (0, 1))  # race: read


if __name__ == "__main__":
    here, there = multiprocessing.Pipe()
    threads = [threading.Thread(target=give, args=(here,)), threading.Thread(target=take, args=(there,))]
    for thread in threads:
        thread.start()
    for thread in threads:
        thread.join()
