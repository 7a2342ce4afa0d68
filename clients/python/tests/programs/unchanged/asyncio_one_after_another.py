"""Tasks are awaited one after another, and each reads, awaits and writes the same object.

due: none
"""

import asyncio


class Progress:
    def __init__(self):
        self.steps = 0


async def step(progress):
    steps = progress.steps
    await asyncio.sleep(0)
    progress.steps = steps + 1


async def main():
    progress = Progress()
    for _ in range(3):
        await asyncio.create_task(step(progress))
    task = asyncio.create_task(step(progress))
    await asyncio.wait_for(asyncio.shield(task), 5)
    print(progress.steps)


asyncio.run(main())
