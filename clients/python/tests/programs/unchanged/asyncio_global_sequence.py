"""Handlers number their requests by a global that they write back after an await.

due: race
thing: sequence
"""

import asyncio

sequence = 0


async def handle(name):
    global sequence
    number = sequence + 1  # race: read
    await asyncio.sleep(0)
    sequence = number  # race: write
    return f"{name}-{number}"


async def main():
    print(await asyncio.gather(handle("a"), handle("b")))


asyncio.run(main())
