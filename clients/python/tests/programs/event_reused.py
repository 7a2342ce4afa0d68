"""An event is set for the first page only, and the second page is read by it, too.

due: race
thing: pages
"""

import threading

from itc_trace import shared

pages = [shared({}, "page 1"), shared({}, "pages")]
printed = threading.Event()


def print_pages():
    pages[0]["text"] = "one"
    printed.set()
    pages[1]["text"] = "two"  # race: write
    printed.set()


printer = threading.Thread(target=print_pages)
printer.start()
printed.wait()
print(pages[0]["text"])
printed.wait()
print(pages[1].get("text") in (None, "two"))  # race: read
printer.join()
