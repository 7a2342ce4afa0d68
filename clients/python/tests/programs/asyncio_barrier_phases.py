"""Tasks write their part, meet at a barrier, and read the part of their neighbour.

due: none
thing: part
"""

import asyncio

from itc_trace import shared

parts = [shared({}, f"part {number}") for number in range(3)]


async def work(number, barrier):
    parts[number]["value"] = number
    await barrier.wait()
    return parts[(number + 1) % 3]["value"]


async def main():
    barrier = asyncio.Barrier(3)
    print(await asyncio.gather(*(work(number, barrier) for number in range(3))))


asyncio.run(main())
