"""A function in an executor fills a dict that a task of the loop looks at meanwhile.

due: race
thing: status
"""

import asyncio

status = {"step": "new"}


def convert():
    status["step"] = "done"  # race: write


async def show():
    return status["step"]  # race: read


async def main():
    loop = asyncio.get_running_loop()
    converting = loop.run_in_executor(None, convert)
    print(await show() in ("new", "done"))
    await converting


asyncio.run(main())
