"""Two consumers of one queue read a count, await the next item, and write the count back.

due: race
thing: seen
"""

import asyncio

seen = 0


async def consume(items):
    global seen
    before = seen  # race: read
    await items.get()
    seen = before + 1  # race: write
    items.task_done()


async def main():
    items = asyncio.Queue()
    consumers = [asyncio.create_task(consume(items)) for _ in range(2)]
    await asyncio.sleep(0)
    for number in range(2):
        items.put_nowait(number)
    await asyncio.gather(*consumers)


asyncio.run(main())
print(seen in (1, 2))
