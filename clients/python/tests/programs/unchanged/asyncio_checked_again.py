"""A task looks again after its await, before it takes a seat.

due: none
"""

import asyncio

free = {"seats": 2}


async def book(name):
    if free["seats"] == 0:
        return None
    await asyncio.sleep(0.001)
    if free["seats"] == 0:
        return None
    free["seats"] -= 1
    return name


async def main():
    booked = await asyncio.gather(*(book(name) for name in ("ann", "bea", "cy")))
    print(len([name for name in booked if name]), free["seats"])


asyncio.run(main())
