"""A frozen dataclass sets a field by the method of object, without a lock.

due: race
thing: Route.length
"""

import dataclasses
import threading


@dataclasses.dataclass(frozen=True)
class Route:
    stops: tuple
    length: int = 0

    def measured(self):
        object.__setattr__(self, "length", self.length + len(self.stops))  # race: read, write


route = Route(("a", "b"))


def work():
    route.measured()


threads = [threading.Thread(target=work) for _ in range(2)]
for thread in threads:
    thread.start()
for thread in threads:
    thread.join()
print(route.length > 0)
