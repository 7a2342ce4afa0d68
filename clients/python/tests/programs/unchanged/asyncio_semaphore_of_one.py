"""A semaphore of one permit is held from the read to the write.

due: none
"""

import asyncio

stock = {"left": 5}


async def sell(gate):
    async with gate:
        left = stock["left"]
        await asyncio.sleep(0.001)
        stock["left"] = left - 1


async def main():
    gate = asyncio.Semaphore(1)
    await asyncio.gather(*(sell(gate) for _ in range(3)))
    print(stock)


asyncio.run(main())
