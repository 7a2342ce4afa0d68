"""Each task sets its own dict in a context variable, and functions below change it.

due: none
"""

import asyncio
import contextvars

trail = contextvars.ContextVar("trail")


def note(word):
    trail.get().append(word)


async def handle(name):
    trail.set([])
    note(name)
    await asyncio.sleep(0)
    note("end")
    return trail.get()


async def main():
    print(await asyncio.gather(handle("a"), handle("b")))


asyncio.run(main())
