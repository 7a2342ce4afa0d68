"""Tasks count without an await between read and write, before and after they wait.

due: none
"""

import asyncio


class Statistics:
    def __init__(self):
        self.begun = 0
        self.steps = 0


statistics = Statistics()


async def handle():
    statistics.begun += 1
    statistics.steps += 1
    await asyncio.sleep(0)
    statistics.steps += 1
    await asyncio.sleep(0)
    statistics.steps += 1


async def main():
    await asyncio.gather(*(handle() for _ in range(3)))
    print(statistics.begun, statistics.steps)


asyncio.run(main())
