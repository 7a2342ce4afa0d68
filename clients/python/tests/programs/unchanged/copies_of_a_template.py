"""Each thread changes a deep copy of a template that nobody changes.

due: none
"""

import copy
import threading

TEMPLATE = {"title": "", "tags": ["draft"]}
pages = []


def make(title):
    page = copy.deepcopy(TEMPLATE)
    page["title"] = title
    page["tags"].append(title)
    pages.append(page)


threads = [threading.Thread(target=make, args=(title,)) for title in ("a", "b")]
for thread in threads:
    thread.start()
for thread in threads:
    thread.join()
print(sorted(page["title"] for page in pages), TEMPLATE)
