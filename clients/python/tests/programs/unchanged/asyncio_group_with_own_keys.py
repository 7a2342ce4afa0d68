"""Each task of a group fills a key of its own, and the sum is made behind the group.

due: none
"""

import asyncio


async def price(prices, name):
    prices[name] = 0
    await asyncio.sleep(0)
    prices[name] += len(name)


async def main():
    prices = {}
    async with asyncio.TaskGroup() as group:
        for name in ("tea", "coffee"):
            group.create_task(price(prices, name))
    print(sum(prices.values()))


asyncio.run(main())
