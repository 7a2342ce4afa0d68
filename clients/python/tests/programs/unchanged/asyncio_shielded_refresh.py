"""A refresh of a token is shielded: who waits gives up and takes a guest's token, and the refresh goes on.

due: race
thing: session['token']
"""

import asyncio

session = {"token": "old", "uses": 0}


async def refresh():
    old = session["token"]  # race: read
    await asyncio.sleep(0.1)
    session["token"] = old + "+new"  # race: write


async def request():
    task = asyncio.create_task(refresh())
    try:
        await asyncio.wait_for(asyncio.shield(task), timeout=0.005)
    except asyncio.TimeoutError:
        session["token"] = "guest"  # race: write
    return task


async def main():
    task = await request()
    await task
    print(session["token"])


asyncio.run(main())
