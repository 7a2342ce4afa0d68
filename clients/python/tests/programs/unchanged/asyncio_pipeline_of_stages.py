"""Stages hand items on by queues, and a sentinel ends each of them.

due: none
"""

import asyncio


async def read(out):
    for number in range(4):
        await out.put({"number": number})
    await out.put(None)


async def square(source, out):
    while (item := await source.get()) is not None:
        item["square"] = item["number"] ** 2
        await asyncio.sleep(0)
        await out.put(item)
    await out.put(None)


async def add(source):
    total = 0
    while (item := await source.get()) is not None:
        total += item["square"]
    return total


async def main():
    first, second = asyncio.Queue(2), asyncio.Queue(2)
    async with asyncio.TaskGroup() as group:
        group.create_task(read(first))
        group.create_task(square(first, second))
        adding = group.create_task(add(second))
    print(adding.result())


asyncio.run(main())
