"""Downloads add up in a variable of the function around them, and read it before they await.

due: race
thing: total
"""

import asyncio


async def main():
    total = 0

    async def download(size):
        nonlocal total
        so_far = total  # race: read
        await asyncio.sleep(0.001)
        total = so_far + size  # race: write

    async with asyncio.TaskGroup() as group:
        group.create_task(download(10))
        group.create_task(download(20))
    print(total in (10, 20))


asyncio.run(main())
