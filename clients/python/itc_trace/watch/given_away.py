"""What a task hands over to whoever finds it: a value that is about to be put into a container.

If nobody else refers to the value, nobody reaches it but by what the task does from here on. So what the task has done
to it comes before whatever others will do to it, and is kept no longer. What only the value refers to goes with it. A
container takes and gives an element at once, so whoever finds an element finds what was done to it before.
"""

from __future__ import annotations

from builtins import id, issubclass, len, list, type
from collections.abc import Sequence
from gc import get_referents
from sys import getrefcount
from typing import Any
from weakref import getweakrefcount

from ..model.lines import LateJob, Line, state
from ..record.noting import line_of_now
from .both_languages import DEEPEST_HANDED_OVER, MOST_HANDED_OVER
from .holding import HAS_COLLECTION
from .seen import NEVER
from .things import HELD, OWNERS, Owner


def _references(children: Sequence[Any]) -> list[int]:
    return [getrefcount(child) for child in children]


_ONE_WITH_CHILD: list[Any] = [[]]
OF_CHILD = _references(get_referents(_ONE_WITH_CHILD))[0]
"""How many references are counted of what only one container refers to."""


_flags_of: Any = vars(type)["__flags__"].__get__
"""It asks no metaclass of the program."""


def has_inside(one: Any) -> bool:
    """Whether it may be changed, or may refer to what may be."""
    return bool(_flags_of(type(one)) & HAS_COLLECTION) and not issubclass(type(one), type)


def toucher() -> Line | LateJob | None:
    """Whose a touch is that comes now. None where tracing is off."""
    if state.note is None:
        return None
    line = line_of_now()
    return line.job or line


def hand_over(one: Any, more: int, places: int) -> None:
    """`more` is how many refer to the value beside who puts it.

    Each bit of `places` is an element that a variable of the function refers to, too.
    """
    found: list[Owner] = []
    _gather(one, more, places, found, 0)
    if not found:
        return
    line = toucher()
    for owner in found:
        for first in owner.history[:1]:
            if first.stretch.line is line and not owner.is_shared and not owner.is_sharing:
                owner.history.clear()
                owner.seen = NEVER


def owners_if_alone(one: Any, more: int) -> list[Owner]:
    """Those of a value and of what only it refers to, if no more refer to it than are expected."""
    found: list[Owner] = []
    _gather(one, more, 0, found, 0)
    return found


def _gather(one: Any, more: int, places: int, found: list[Owner], depth: int) -> None:
    """Adds the owners of the value, and of what only the value refers to."""
    owner = OWNERS.get(id(one))
    if more > HELD.has(id(one)) or getweakrefcount(one) > (owner is not None and owner.reference is not None):
        return
    if owner is not None:
        found.append(owner)
    if depth >= DEEPEST_HANDED_OVER:
        return
    children = (list(one.values()) if type(one) is dict else list(one)) if places else get_referents(one)
    for place, references in enumerate(_references(children)):
        if len(found) >= MOST_HANDED_OVER:
            return
        if has_inside(children[place]):
            _gather(children[place], references - OF_CHILD - (places >> place & 1), 0, found, depth + 1)
