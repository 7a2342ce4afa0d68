"""Consumers take orders from an asyncio queue, and the producer waits until all are done.

due: none
thing: order
"""

import asyncio

from itc_trace import shared


async def consume(orders):
    while True:
        order = await orders.get()
        order["price"] = order["amount"] * 2
        await asyncio.sleep(0)
        orders.task_done()


async def main():
    orders, made = asyncio.Queue(maxsize=1), []
    consumers = [asyncio.create_task(consume(orders)) for _ in range(2)]
    for number in range(4):
        order = shared({}, f"order {number}")
        order["amount"] = number
        made.append(order)
        await orders.put(order)
    await orders.join()
    for consumer in consumers:
        consumer.cancel()
    print([order["price"] for order in made])


asyncio.run(main())
