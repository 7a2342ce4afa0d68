"""A task looks through all clients again and again, and waits only in between, so nobody adds a client while it looks.

due: none
"""

import asyncio

clients = {"ann": 0, "bob": 0}


async def count_all():
    for _ in range(4):
        for name in clients:
            clients[name] += 1
        await asyncio.sleep(0)
    for name in list(clients):
        await asyncio.sleep(0)
    return sum(clients.values())


async def join():
    for number in range(3):
        clients[f"guest{number}"] = 0
        await asyncio.sleep(0)


async def main():
    await asyncio.gather(count_all(), join())


asyncio.run(main())
print("counted")
