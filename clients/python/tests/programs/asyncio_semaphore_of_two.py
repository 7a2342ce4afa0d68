"""An asyncio semaphore lets two tasks in, and both update one counter across an await.

due: race
thing: quota
"""

import asyncio

from itc_trace import shared

quota = shared({"used": 0}, "quota")


async def consume(gate):
    async with gate:
        used = quota["used"]  # race: read
        await asyncio.sleep(0)
        quota["used"] = used + 1  # race: write


async def main():
    gate = asyncio.Semaphore(2)
    await asyncio.gather(consume(gate), consume(gate))


asyncio.run(main())
print(quota["used"])
