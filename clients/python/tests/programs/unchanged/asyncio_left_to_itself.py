"""A program starts a task that nobody awaits, and prints what it counted once the loop has ended.

due: none
"""

import asyncio

totals = {"sent": 0, "closed": 0}


async def send(number):
    await asyncio.sleep(0)
    totals["sent"] += number


async def numbers():
    try:
        for number in range(1, 4):
            yield number
    finally:
        totals["closed"] += 1


async def main():
    async for number in numbers():
        asyncio.create_task(send(number))
        if number == 2:
            break
    await asyncio.sleep(0.01)


asyncio.run(main())
totals["sent"] += 1
print(totals)
