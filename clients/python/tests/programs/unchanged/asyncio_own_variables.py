"""Each task reads, awaits and writes, but each its own object.

due: none
"""

import asyncio
from dataclasses import dataclass


@dataclass
class Download:
    address: str
    size: int = 0

    async def run(self):
        for _ in range(3):
            size = self.size
            await asyncio.sleep(0)
            self.size = size + len(self.address)
        return self


async def main():
    done = await asyncio.gather(*(Download(address).run() for address in ("a", "bb")))
    print([download.size for download in done])


asyncio.run(main())
