"""Each call makes a lock of its own, so that all are in between read and write at once.

due: race
thing: Quota.used
"""

import asyncio


class Quota:
    used = 0

    async def consume(self):
        async with asyncio.Lock():
            used = self.used  # race: read
            await asyncio.sleep(0.001)
            self.used = used + 1  # race: write


async def main():
    quota = Quota()
    quota.used = 0
    await asyncio.gather(quota.consume(), quota.consume())
    print(quota.used)


asyncio.run(main())
