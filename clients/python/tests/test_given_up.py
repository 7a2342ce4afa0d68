"""Who gives up waiting comes after whoever cancelled the waiting, and not after what goes on."""

from __future__ import annotations

import asyncio
import concurrent.futures
import contextlib
import threading
import unittest

from .support import WAIT, Step, wait_until
from .test_asyncio import Asynchronous, writing
from .test_threads import write


async def wait_in_vain(future: asyncio.Future[object]) -> None:
    try:
        await asyncio.wait_for(future, 0.001)
    except (asyncio.CancelledError, asyncio.TimeoutError):
        return
    raise AssertionError("the wait came to its end")


class GivenUp(Asynchronous):
    def test_a_shielded_task_goes_on_beside_who_gave_up(self) -> None:
        async def write_and_wait(go_on: asyncio.Event) -> None:
            write()
            await go_on.wait()

        async def main() -> None:
            go_on = asyncio.Event()
            task = asyncio.create_task(write_and_wait(go_on))
            await wait_in_vain(asyncio.shield(task))
            write()
            go_on.set()
            await task

        self.race(main)

    def test_who_awaits_a_shield_comes_after_who_cancelled_it(self) -> None:
        async def wait_for_it(shield: asyncio.Future[object]) -> None:
            with self.assertRaises(asyncio.CancelledError):
                await shield
            write()

        async def main() -> None:
            stop = asyncio.Event()
            task = asyncio.create_task(stop.wait())
            shield = asyncio.shield(task)
            waiting = asyncio.create_task(wait_for_it(shield))
            await asyncio.sleep(0)
            write()
            shield.cancel()
            await waiting
            stop.set()
            await task

        self.ordered(main)

    def test_who_awaits_a_shield_comes_after_the_task_that_was_cancelled(self) -> None:
        async def write_at_the_end() -> None:
            try:
                await asyncio.sleep(WAIT)
            finally:
                write()

        async def main() -> None:
            task = asyncio.create_task(write_at_the_end())
            shield = asyncio.shield(task)
            await asyncio.sleep(0)
            task.cancel()
            with self.assertRaises(asyncio.CancelledError):
                await shield
            write()

        self.ordered(main)

    def test_who_gave_up_a_job_does_not_come_after_its_end(self) -> None:
        async def main() -> None:
            begun, gave_up = Step(), Step()

            def job() -> None:
                begun.done()
                gave_up.wait()
                write()

            with concurrent.futures.ThreadPoolExecutor(2) as pool:
                submitted = pool.submit(job)
                waited_for = asyncio.wrap_future(submitted)
                begun.wait()
                await wait_in_vain(waited_for)
                gave_up.done()
                wait_until(lambda: submitted._state == "FINISHED")
                self.assertTrue(waited_for.done())
                write()

        self.race(main)

    def test_who_cancels_a_coroutine_of_another_loop_does_not_come_after_it(self) -> None:
        def scenario() -> None:
            loop, has_written = asyncio.new_event_loop(), Step()

            async def write_and_wait() -> None:
                write()
                has_written.done()
                await asyncio.sleep(WAIT)

            thread = threading.Thread(target=loop.run_forever)
            thread.start()
            future = asyncio.run_coroutine_threadsafe(write_and_wait(), loop)
            has_written.wait()
            future.cancel()
            with self.assertRaises(concurrent.futures.CancelledError):
                future.result()
            write()
            loop.call_soon_threadsafe(loop.stop)
            thread.join()
            for task in asyncio.all_tasks(loop):
                with contextlib.suppress(asyncio.CancelledError):
                    loop.run_until_complete(task)
            loop.close()

        self.assert_race(scenario)

    def test_the_task_is_taken_where_it_ended_by_itself(self) -> None:
        async def main() -> None:
            await asyncio.wait_for(asyncio.shield(writing()), WAIT)
            write()

        self.ordered(main)


if __name__ == "__main__":
    unittest.main()
