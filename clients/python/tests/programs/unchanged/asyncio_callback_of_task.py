"""A callback of a task reads what the task wrote, and sets an event.

due: none
"""

import asyncio


class Upload:
    def __init__(self):
        self.sent = 0
        self.finished = asyncio.Event()

    async def run(self):
        for _ in range(3):
            sent = self.sent
            await asyncio.sleep(0)
            self.sent = sent + 1

    def done(self, task):
        self.sent += 10
        self.finished.set()


async def main():
    upload = Upload()
    task = asyncio.create_task(upload.run())
    task.add_done_callback(upload.done)
    await upload.finished.wait()
    print(upload.sent)


asyncio.run(main())
