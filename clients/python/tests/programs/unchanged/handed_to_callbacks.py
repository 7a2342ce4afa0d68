"""Callbacks of a future, of a pool and of a loop are methods of lists, which are looked at meanwhile.

due: race
thing: done or called or got
"""

import asyncio
import threading
from concurrent.futures import ThreadPoolExecutor
from multiprocessing.pool import ThreadPool

done, called, got = [], [], []
gate = threading.Event()

with ThreadPoolExecutor(1) as pool:
    pool.submit(gate.wait).add_done_callback(done.append)  # race: write
    gate.set()
    print(len(done) < 2)  # race: read

with ThreadPool(1) as pool:
    result = pool.apply_async(int, callback=called.append)  # race: write
    print(len(called) < 2)  # race: read
    result.wait()


async def main():
    loop = asyncio.get_running_loop()

    def work():
        loop.call_soon_threadsafe(got.append, 1)  # race: write
        print(len(got) < 2)  # race: read

    await asyncio.to_thread(work)


asyncio.run(main())
