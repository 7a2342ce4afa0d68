"""Looks: a task reads under a lock what another one has written under the same lock.

Who comes first at a lock is luck. But whoever reads a flag there, or whether a thing is made yet, does something else
if the other task comes later. So what it does then comes after that task as it was meant to. Causally-precedes
(Smaragdakis and others 2012) orders two sections of a lock by touches that conflict. Here only a read counts, and only
of a thing that the reader does not write in that section: else two tasks that count something would be in order by
that.
"""

from __future__ import annotations

from collections import defaultdict
from collections.abc import Iterable

from ..model.conflicts import READ, WRITE
from ..record.journal import Row
from .trace import Events, Trace

def looks_of(rows: Iterable[Row], trace: Trace) -> dict[int, Events]:
    """Of each event with a look the events that its task knows by that.

    Only things count that the program itself has named.
    """
    writes: dict[tuple[str, str], Events] = defaultdict(int)
    reads: list[Row] = []
    for row in rows:
        if row.thing is not None and not row.name and row.kind == READ and row.held:
            reads.append(row)
        elif row.thing is not None and not row.name and row.kind == WRITE:
            for lock in row.held:
                writes[row.thing, lock] |= 1 << row.event
    found: dict[int, Events] = defaultdict(int)
    for read in reads:
        for lock in read.held:
            found[read.event] |= _seen(read, writes.get((read.thing or "", lock), 0), trace)
    return {event: known for event, known in found.items() if known}


def _seen(read: Row, writes: Events, trace: Trace) -> Events:
    """What is known by the last of these writes, if another task made it."""
    if writes >> read.event & 1:
        return 0
    last = (writes & trace.before[read.event]).bit_length() - 1
    return 0 if last < 0 or trace[last].task == read.task else trace.before[last] | 1 << last
