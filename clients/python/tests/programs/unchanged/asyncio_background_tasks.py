"""Background tasks are kept in a set and discard themselves when they are done.

due: none
"""

import asyncio

background = set()


async def work(number):
    await asyncio.sleep(0.001 * number)
    return number


def start(number):
    task = asyncio.create_task(work(number))
    background.add(task)
    task.add_done_callback(background.discard)
    return task


async def main():
    tasks = [start(number) for number in range(3)]
    print(await asyncio.gather(*tasks))
    await asyncio.sleep(0)
    print(len(background))


asyncio.run(main())
