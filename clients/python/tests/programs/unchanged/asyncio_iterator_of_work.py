"""The workers of one loop share an iterator of addresses, and each takes the next one after its await.

due: none
"""

import asyncio

addresses = iter(["/a", "/b", "/c", "/d"])
sizes = {}


async def work():
    for address in addresses:
        await asyncio.sleep(0)
        sizes[address] = len(address)


async def main():
    await asyncio.gather(work(), work())


asyncio.run(main())
print(len(sizes))
