"""A task tells each client by turns under a lock, under which others add a client.

due: none
"""

import asyncio


class Room:
    def __init__(self):
        self.clients = ["ann", "bob"]
        self.lock = asyncio.Lock()

    async def tell_all(self):
        async with self.lock:
            for _ in self.clients:
                await asyncio.sleep(0)

    async def join(self, name):
        async with self.lock:
            self.clients.append(name)


async def main():
    room = Room()
    await asyncio.gather(room.tell_all(), room.join("eve"), room.tell_all())
    print(room.clients)


asyncio.run(main())
