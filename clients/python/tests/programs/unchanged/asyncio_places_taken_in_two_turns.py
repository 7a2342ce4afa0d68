"""Tasks look for a place in one turn of their loop, and take it in a later one.

due: race
thing: Places.busy
"""

import asyncio


class Places:
    def __init__(self):
        self.busy = set()

    async def work(self, key):
        if len(self.busy) < 2:  # race: read
            await asyncio.sleep(0)
            self.busy.add(key)  # race: write
            await asyncio.sleep(0)
            self.busy.remove(key)  # also: write


async def main():
    places = Places()
    await asyncio.gather(*(places.work(key) for key in range(4)))
    print(len(places.busy))


asyncio.run(main())
