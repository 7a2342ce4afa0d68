"""The tasks of a group read a price, await, and write the sum back.

due: race
thing: Cart.total
"""

import asyncio


class Cart:
    def __init__(self):
        self.total = 0

    async def add(self, price):
        total = self.total  # race: read
        await asyncio.sleep(0)
        self.total = total + price  # race: write


async def main():
    cart = Cart()
    async with asyncio.TaskGroup() as group:
        for price in (1, 2):
            group.create_task(cart.add(price))
    print(cart.total > 0)


asyncio.run(main())
