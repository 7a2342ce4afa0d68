"""Generic classes and protocols are named in annotations and made in threads, and nothing is shared but a lock and a list.

due: none
"""

import threading
from typing import Generic, NamedTuple, Protocol, TypeVar, runtime_checkable

T = TypeVar("T")


class Pair(NamedTuple):
    name: str
    size: int


@runtime_checkable
class Sized(Protocol):
    def size(self) -> int: ...


class Stack(Generic[T]):
    def __init__(self) -> None:
        self.items: list[T] = []

    def push(self, one: T) -> "Stack[T]":
        self.items.append(one)
        return self

    def size(self) -> int:
        return len(self.items)


lock = threading.Lock()
pairs: list[Pair] = []


def work(name: str) -> None:
    stack = Stack[int]().push(1).push(2)
    if isinstance(stack, Sized):
        with lock:
            pairs.append(Pair(name, stack.size())._replace(name=name * 2))


threads = [threading.Thread(target=work, args=(name,)) for name in "ab"]
for thread in threads:
    thread.start()
for thread in threads:
    thread.join()
print(sorted(pairs))
