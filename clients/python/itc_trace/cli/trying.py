"""Which races a further run is to have, and where it holds tasks for that."""

from __future__ import annotations

import random
from collections.abc import Iterator, Sequence

from ..analyse.races import Race
from ..model.handed_over import OF_SHARED, Plan

MOST_PAIRS = 200
"""So many races are tried at once, those that are told first."""


_WAYS = ((0, 1), (0, 1), (1,), (0,))
"""At which sides of a pair tasks are held, by the number of the run. In all but the first of these they are held before
locks as well."""


def plan_of(races: Sequence[Race], number: int) -> Plan:
    """What the run of this number tries.

    One run after the other tries another way. From the fifth one on each tries half of the pairs: a task that is held
    for one may keep others from meeting.
    """
    chosen = list(races[:MOST_PAIRS])
    if number >= len(_WAYS) and len(chosen) > 1:
        chosen = random.Random(number).sample(chosen, (len(chosen) + 1) // 2)
    way = number % len(_WAYS)
    held = sorted({_places_of(race)[side] for race in chosen for side in _WAYS[way]})
    gates = sorted({gate for race in chosen for gate in _gates_of(race)}) if way else []
    return Plan([_places_of(race) for race in chosen], held, way < len(_WAYS) // 2, gates)


def _places_of(race: Race) -> tuple[str, str]:
    first, second = race.places
    return (f"{OF_SHARED}{first}", f"{OF_SHARED}{second}") if race.is_of_shared else (first, second)


def _gates_of(race: Race) -> Iterator[tuple[str, str]]:
    """The locks that one side alone holds, each with the place of the other one."""
    for side, other in zip(race.example, reversed(_places_of(race))):
        for lock in side.held:
            yield lock.partition(" ")[2], other
