"""Two handlers miss the same page in a cache, and both fetch it.

due: race
thing: pages
"""

import asyncio

from itc_trace import shared

pages = shared({}, "pages")


async def fetch(path):
    await asyncio.sleep(0.01)
    return f"<h1>{path}</h1>"


async def handle(path):
    if path not in pages:  # race: read
        pages[path] = await fetch(path)  # race: write
    return pages[path]  # also: read


async def main():
    async with asyncio.TaskGroup() as group:
        for _ in range(2):
            group.create_task(handle("/home"))


asyncio.run(main())
print(sorted(pages))
