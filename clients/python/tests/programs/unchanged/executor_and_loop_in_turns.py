"""The loop and a function in an executor change a dict in turns.

due: none
"""

import asyncio
from concurrent.futures import ThreadPoolExecutor

status = {"step": 0}


def step():
    status["step"] += 1
    return status["step"]


async def main():
    loop = asyncio.get_running_loop()
    with ThreadPoolExecutor(2) as pool:
        for _ in range(3):
            await loop.run_in_executor(pool, step)
            status["step"] += 1
            await asyncio.to_thread(step)
    print(status["step"])


asyncio.run(main())
