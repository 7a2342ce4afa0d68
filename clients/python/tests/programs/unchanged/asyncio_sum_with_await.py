"""The left side of `+=` is read before the right side is awaited.

due: race
thing: Report.total
"""

import asyncio


class Report:
    def __init__(self):
        self.total = 0

    async def add(self, source):
        self.total += await source()  # race: read, write


async def one():
    await asyncio.sleep(0.005)
    return 1


async def main():
    report = Report()
    async with asyncio.TaskGroup() as group:
        for _ in range(3):
            group.create_task(report.add(one))
    print(report.total)


asyncio.run(main())
