"""A lock of the loop is held while a thread adds to a sum.

due: none
"""
import asyncio

sums = {"all": 0}


def add(number):
    before = sums["all"]
    sums["all"] = before + number


async def book(lock, number):
    async with lock:
        await asyncio.to_thread(add, number)


async def main():
    lock = asyncio.Lock()
    await asyncio.gather(*(book(lock, number) for number in range(3)))
    print(sums["all"])


asyncio.run(main())
