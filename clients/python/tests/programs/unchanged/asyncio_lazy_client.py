"""The client is connected when it is first wanted, and connecting awaits.

due: race
thing: Service.client
"""

import asyncio


class Service:
    client = None

    async def connect(self):
        await asyncio.sleep(0.002)
        return object()

    async def request(self):
        if self.client is None:  # race: read
            self.client = await self.connect()  # race: write
        return self.client  # also: read


async def main():
    service = Service()
    clients = await asyncio.gather(service.request(), service.request())
    print(len(clients))


asyncio.run(main())
