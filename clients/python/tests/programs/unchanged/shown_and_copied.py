"""What is inside of containers and dataclasses is shown, copied, compared and written as a text, while another thread changes it.

due: race
thing: state or Settings.level or tree
"""

import copy
import json
import threading
from dataclasses import asdict, dataclass, field


@dataclass
class Settings:
    level: int = 1
    names: list[str] = field(default_factory=list)


settings, default = Settings(), Settings()
state = {"counts": {"a": 1}}
tree = {"leaves": [1, 2]}


def change():
    settings.level = 2  # race: write
    state["counts"]["a"] = 2  # race: write
    tree["leaves"].append(3)  # race: write


def look():
    print(settings)  # race: read
    print(settings == default)  # race: read
    print(asdict(settings)["names"])  # race: read
    print(f"{state}", json.dumps(state) == "")  # race: read
    print(len(copy.deepcopy(tree)))  # race: read


threads = [threading.Thread(target=change), threading.Thread(target=look)]
for thread in threads:
    thread.start()
for thread in threads:
    thread.join()
