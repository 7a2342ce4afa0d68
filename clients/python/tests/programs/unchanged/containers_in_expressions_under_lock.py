"""One thread fills containers, and another one uses all of each under the same lock.

due: none
"""

import functools
import operator
import threading

lines, names, rates = ["a"], {"ann"}, {"usd": 1}
lock = threading.Lock()


def fill():
    with lock:
        lines.append("b")
        names.add("bob")
        rates["eur"] = 2


def look():
    with lock:
        told = [",".join(lines), "%s" % lines, "{}".format(lines), functools.reduce(operator.add, lines)]
        more = {**rates, "names": len(names | {"eve"})}
        told.extend(lines)
        more.update(rates)
    return lines is told or told + [more]


threads = [threading.Thread(target=fill), threading.Thread(target=look)]
for thread in threads:
    thread.start()
for thread in threads:
    thread.join()
