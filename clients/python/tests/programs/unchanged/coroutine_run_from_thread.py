"""A thread has a loop of its own, which others give coroutines to and wait for.

due: none
"""

import asyncio
import threading


class Client:
    def __init__(self):
        self.loop = asyncio.new_event_loop()
        self.sent = []
        self.thread = threading.Thread(target=self.loop.run_forever)
        self.thread.start()

    async def _send(self, text):
        self.sent.append(text)
        await asyncio.sleep(0)
        return len(self.sent)

    def send(self, text):
        return asyncio.run_coroutine_threadsafe(self._send(text), self.loop).result()

    def close(self):
        self.loop.call_soon_threadsafe(self.loop.stop)
        self.thread.join()
        self.loop.close()


client = Client()
print(client.send("a"), client.send("b"))
client.close()
print(client.sent)
