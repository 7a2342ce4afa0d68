"""A phase that a condition protects says whose turn it is to use the board without the lock.

due: none
thing: board
"""

import threading

from itc_trace import shared

board = shared({"moves": 0}, "board")


class Turns:
    def __init__(self, count):
        self.condition = threading.Condition()
        self.turn = 0
        self.count = count

    def wait_for(self, player):
        with self.condition:
            self.condition.wait_for(lambda: self.turn == player)

    def pass_on(self):
        with self.condition:
            self.turn = (self.turn + 1) % self.count
            self.condition.notify_all()


turns = Turns(2)


def play(player):
    for _ in range(3):
        turns.wait_for(player)
        board["moves"] += 1
        turns.pass_on()


threads = [threading.Thread(target=play, args=(player,)) for player in range(2)]
for thread in threads:
    thread.start()
for thread in threads:
    thread.join()
print(board["moves"])
