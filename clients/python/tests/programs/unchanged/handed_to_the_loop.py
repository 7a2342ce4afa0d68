"""A thread reads lines and hands each to the loop by `call_soon_threadsafe`.

due: none
"""

import asyncio
import threading


class Line:
    def __init__(self, text):
        self.text = text
        self.seen = False


def read(loop, inbox):
    for text in ("one", "two"):
        line = Line(text)
        line.text = line.text.upper()
        loop.call_soon_threadsafe(inbox.put_nowait, line)
    loop.call_soon_threadsafe(inbox.put_nowait, None)


async def main():
    inbox = asyncio.Queue()
    reader = threading.Thread(target=read, args=(asyncio.get_running_loop(), inbox))
    reader.start()
    while (line := await inbox.get()) is not None:
        line.seen = True
        print(line.text)
    reader.join()


asyncio.run(main())
