"""An asynchronous generator keeps its cursor in an object that two tasks page with.

due: race
thing: Pages.cursor
"""

import asyncio


class Pages:
    def __init__(self):
        self.cursor = 0

    async def __aiter__(self):
        while self.cursor < 2:  # also: read
            cursor = self.cursor  # race: read
            await asyncio.sleep(0)
            self.cursor = cursor + 1  # race: write
            yield cursor


async def read(pages):
    return [page async for page in pages]


async def main():
    pages = Pages()
    await asyncio.gather(read(pages), read(pages))
    print(pages.cursor)


asyncio.run(main())
