"""Two functions run by `to_thread` at the same time change one object.

due: race
thing: Report.rows
"""

import asyncio


class Report:
    def __init__(self):
        self.rows = 0

    def add(self, count):
        rows = self.rows  # race: read
        self.rows = rows + count  # race: write


async def main():
    report = Report()
    await asyncio.gather(asyncio.to_thread(report.add, 2), asyncio.to_thread(report.add, 3))
    print(report.rows in (2, 3, 5))


asyncio.run(main())
