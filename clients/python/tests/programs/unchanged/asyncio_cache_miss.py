"""Two requests miss the cache and both render the page.

due: race
thing: pages['/']
"""

import asyncio

pages = {}


async def render(path):
    await asyncio.sleep(0.005)
    return f"page of {path}"


async def get(path):
    if path not in pages:  # race: read
        pages[path] = await render(path)  # race: write
    return pages[path]  # also: read


async def main():
    print(await asyncio.gather(get("/"), get("/")))


asyncio.run(main())
