"""A task waits until another one of the same loop has set an attribute.

due: none
"""

import asyncio


class Service:
    def __init__(self):
        self.up = False
        self.answers = []

    async def start(self):
        await asyncio.sleep(0.002)
        self.up = True

    async def ask(self, question):
        while not self.up:
            await asyncio.sleep(0.001)
        self.answers.append(question)


async def main():
    service = Service()
    await asyncio.gather(service.ask("a"), service.ask("b"), service.start())
    print(sorted(service.answers))


asyncio.run(main())
