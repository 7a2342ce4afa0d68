"""Workers of one loop take jobs from a queue and add to the results by one step.

due: none
"""

import asyncio


async def work(jobs, results):
    while True:
        name, number = await jobs.get()
        await asyncio.sleep(0)
        results[name] = results.get(name, 0) + number
        jobs.task_done()


async def main():
    jobs, results = asyncio.Queue(), {}
    workers = [asyncio.create_task(work(jobs, results)) for _ in range(2)]
    for number in range(4):
        await jobs.put(("even" if number % 2 == 0 else "odd", number))
    await jobs.join()
    for worker in workers:
        worker.cancel()
    await asyncio.gather(*workers, return_exceptions=True)
    print(results)


asyncio.run(main())
