"""A ring of players is rotated by one thread, while another one asks who is first.

due: race
thing: players
"""

import threading
from collections import deque

players = deque(["ann", "bob", "eve"])


def turn():
    players.rotate(-1)  # race: write


def first():
    print(players[0] in ("ann", "bob"))  # race: read


threads = [threading.Thread(target=turn), threading.Thread(target=first)]
for thread in threads:
    thread.start()
for thread in threads:
    thread.join()
