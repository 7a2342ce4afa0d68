"""A queue of one's own waits for its first item without taking it, by its own condition.

due: none
"""
import queue
import threading


class Peeked(queue.Queue):
    looks = 0

    def peek(self):
        with self.not_empty:
            while not self._qsize():
                self.not_empty.wait()
            self.looks += 1
            self.not_empty.notify()
            return self.queue[0]


letters, seen = Peeked(), []


def look():
    seen.append(letters.peek()["text"])


threads = [threading.Thread(target=look) for _ in range(2)]
for thread in threads:
    thread.start()
letter = {"text": "hello"}
letters.put(letter)
for thread in threads:
    thread.join()
print(seen, letters.looks)
