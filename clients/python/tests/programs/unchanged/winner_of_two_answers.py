"""Two threads answer one promise with their name. Once the later one has seen that it is too late, what the winner says is read.

due: none
"""
import os
import threading
from concurrent.futures import Future, InvalidStateError

answer, said, (reading, writing) = Future(), {}, os.pipe()


def ask(name):
    said[name] = "yes"
    try:
        answer.set_result(name)
    except InvalidStateError:
        pass
    os.write(writing, b".")


threads = [threading.Thread(target=ask, args=(name,)) for name in ("ada", "bob")]
for thread in threads:
    thread.start()
for _ in threads:
    os.read(reading, 1)
print(said[answer.result()])
for thread in threads:
    thread.join()
