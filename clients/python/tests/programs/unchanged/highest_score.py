"""A property keeps the highest score by a check and a write.

due: race
thing: Game._highest
"""

import threading


class Game:
    def __init__(self):
        self._highest = 0

    @property
    def highest(self):
        return self._highest

    @highest.setter
    def highest(self, score):
        if score > self._highest:  # race: read
            self._highest = score  # race: write


game = Game()


def play(score):
    game.highest = score


players = [threading.Thread(target=play, args=(score,)) for score in (30, 40)]
for player in players:
    player.start()
for player in players:
    player.join()
print(game.highest >= 30)
