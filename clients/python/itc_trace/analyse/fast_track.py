"""Which pairs of touches decide whether a thing has a race.

As in FastTrack (Flanagan and Freund 2009), a touch is compared with the last ones that conflict with it and that no
later touch stands for, and not with all. If each of these pairs is in order, all pairs that conflict are: a touch is
stood for by a later one only if the later one comes after it and conflicts with all that it conflicts with. If one is
not in order, that is a race.
"""

from __future__ import annotations

from collections import defaultdict
from collections.abc import Iterable, Iterator

from ..model.conflicts import CONFLICTING
from ..record.journal import Row


def deciding_pairs(touches: Iterable[Row]) -> Iterator[tuple[int, int]]:
    """Pairs of events of two tasks, for the touches of one thing in the order of their events."""
    last: dict[str, dict[str, int]] = defaultdict(dict)
    for touch in touches:
        for kind, events in last.items():
            is_stood_for = CONFLICTING[kind] <= CONFLICTING[touch.kind]
            if kind in CONFLICTING[touch.kind]:
                for task, event in events.items():
                    if task != touch.task:
                        yield event, touch.event
                if is_stood_for:
                    events.clear()
            elif is_stood_for:
                events.pop(touch.task, None)
        last[touch.kind][touch.task] = touch.event
