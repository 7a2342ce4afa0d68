"""A task cleans up when it is cancelled, and the main task reads what it left.

due: none
thing: connection
"""

import asyncio

from itc_trace import shared


async def serve(connection):
    connection["state"] = "open"
    try:
        await asyncio.sleep(60)
    finally:
        connection["state"] = "closed"


async def main():
    connection = shared({}, "connection")
    server = asyncio.create_task(serve(connection))
    await asyncio.sleep(0.01)
    server.cancel()
    try:
        await server
    except asyncio.CancelledError:
        print(connection["state"])


asyncio.run(main())
