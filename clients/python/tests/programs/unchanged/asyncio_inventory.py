"""Each order reads the inventory, asks the payment service, and writes it back.

due: race
thing: inventory['lamp']
"""

import asyncio

inventory = {"lamp": 3}


async def charge(customer):
    await asyncio.sleep(0.002)
    return customer


async def order(customer, item):
    left = inventory[item]  # race: read
    if left and await charge(customer):
        inventory[item] = left - 1  # race: write


async def main():
    await asyncio.gather(*(order(customer, "lamp") for customer in ("ann", "bea", "cy")))
    print(inventory)


asyncio.run(main())
