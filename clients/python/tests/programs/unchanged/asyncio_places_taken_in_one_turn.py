"""Tasks look for a place and take it in one turn of their loop, and give it back in a later one.

due: none
"""

import asyncio
from collections import deque


class Places:
    def __init__(self):
        self.busy = set()
        self.idle = deque(["a", "b", "c"])

    async def work(self, key):
        if len(self.busy) < 10:
            self.busy.add(key)
            await asyncio.sleep(0)
            self.busy.remove(key)

    async def borrow(self):
        if self.idle:
            name = self.idle.popleft()
            await asyncio.sleep(0)
            self.idle.append(name)


async def main():
    places = Places()
    await asyncio.gather(*(places.work(key) for key in range(4)), *(places.borrow() for _ in range(3)))
    print(len(places.busy), len(places.idle))


asyncio.run(main())
