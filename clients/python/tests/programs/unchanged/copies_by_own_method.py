"""A class copies itself by a method of its own under its lock, and each thread changes its copy.

due: none
"""

import copy
import threading


class Board:
    def __init__(self):
        self.cells, self.moves, self.lock = [0] * 4, 0, threading.Lock()

    def __copy__(self):
        made = Board()
        with self.lock:
            made.cells, made.moves = self.cells[:], self.moves
        return made

    def __deepcopy__(self, memory):
        return self.__copy__()

    def play(self, cell):
        with self.lock:
            self.cells[cell] = 1
            self.moves += 1


board, results = Board(), {}


def work(cell):
    mine = copy.copy(board) if cell % 2 else copy.deepcopy(board)
    mine.cells[cell] = 2
    mine.moves += 1
    board.play(cell)
    results[cell] = sum(mine.cells)


threads = [threading.Thread(target=work, args=(cell,)) for cell in range(3)]
for thread in threads:
    thread.start()
for thread in threads:
    thread.join()
print(board.moves, len(results))
