"""Tasks wait for an event before they read what the loader wrote step by step.

due: none
"""

import asyncio


class Cache:
    def __init__(self):
        self.loaded = asyncio.Event()
        self.pages = {}

    async def load(self):
        for name in ("a", "b"):
            await asyncio.sleep(0)
            self.pages[name] = name * 2
        self.loaded.set()

    async def get(self, name):
        await self.loaded.wait()
        return self.pages[name]


async def main():
    cache = Cache()
    async with asyncio.TaskGroup() as group:
        group.create_task(cache.load())
        tasks = [group.create_task(cache.get(name)) for name in "ab"]
    print([task.result() for task in tasks])


asyncio.run(main())
