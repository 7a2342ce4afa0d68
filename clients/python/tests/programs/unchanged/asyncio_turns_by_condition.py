"""Players of one loop wait for their turn by a condition, and await in the middle of a move.

due: none
"""

import asyncio


class Board:
    def __init__(self):
        self.turn = 0
        self.moves = 0
        self.condition = asyncio.Condition()


async def play(board, player):
    for _ in range(2):
        async with board.condition:
            await board.condition.wait_for(lambda: board.turn == player)
            moves = board.moves
            await asyncio.sleep(0)
            board.moves = moves + 1
            board.turn = 1 - board.turn
            board.condition.notify_all()


async def main():
    board = Board()
    await asyncio.gather(play(board, 0), play(board, 1))
    print(board.moves)


asyncio.run(main())
