"""A task tells each client by turns, and another one adds a client in between: then the loop fails.

due: race
thing: clients
"""

import asyncio

clients = {"ann": [], "bob": []}


async def tell_all(text):
    try:
        for name in clients:  # race: read
            await asyncio.sleep(0)
            clients[name].append(text)
    except RuntimeError:
        return "failed"
    return "told"


async def join(name):
    await asyncio.sleep(0)
    clients[name] = []  # race: write


async def main():
    await asyncio.gather(tell_all("hello"), join("eve"))


asyncio.run(main())
print("over")
