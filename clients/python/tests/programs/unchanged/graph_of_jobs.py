"""Jobs wait for other jobs by `graphlib`. The main thread alone has the table of results, and hands on what a job needs.

due: none
"""

import graphlib
from concurrent.futures import FIRST_COMPLETED, ThreadPoolExecutor, wait

GRAPH = {"shirt": {"cloth"}, "cloth": {"yarn"}, "yarn": set(), "buttons": set(), "order": {"shirt", "buttons"}}


def make(name, parts):
    parts["made"] = sorted(parts)
    return {"name": name, "parts": parts["made"]}


sorter = graphlib.TopologicalSorter(GRAPH)
sorter.prepare()
results, running = {}, {}
with ThreadPoolExecutor(3) as executor:
    while sorter.is_active():
        for name in sorter.get_ready():
            parts = {part: results[part]["name"] for part in GRAPH[name]}
            running[executor.submit(make, name, parts)] = name
        done, _ = wait(running, return_when=FIRST_COMPLETED)
        for future in done:
            name = running.pop(future)
            results[name] = future.result()
            sorter.done(name)
print(results["order"]["parts"])
