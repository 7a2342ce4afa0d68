"""Keeps in short what one task alone touches, and works out what it comes to once a second task reaches the same owner.

What one task alone touches is nobody's race. So a hook keeps a mark, and what the touch depends on that may be another
one later. Things, kinds and keys are made of that when the owner is shared, or never. From then on each touch of the
owner is noted as it comes.
"""

from __future__ import annotations

import os
from _thread import allocate_lock, get_ident
from builtins import id, len, list
from collections.abc import Callable, Iterable
from itertools import islice
from typing import Any

from ..model.conflicts import ADDITION, LENGTH, LOOKUP, MAKING, READ, REPLACEMENT, WRITE
from ..model.lines import LATE, LateJob, Line, Stretch, Touched, state
from ..record.noting import begin_stretch, touched_all
from ..model.stretches import AT_BORDER, STRETCHES
from .places import ACCESSES
from .seen import Late, Seen
from .both_languages import SHORTENED_AT
from .things import OWNERS, Owner, element_of, field_of, shape_of

Touches = dict[Any, Touched]
Counted = dict[int, tuple[Any, int]]
"""How many marks there were in each stretch, by the identity of what has them, which is held: no other one gets it."""

MOST_RECIPES = 1024
"""So many touches of an owner are kept ready to be noted once more."""
READ_ONLY = "r"
ADDED, FOUND = "added", "found"
"""What `setdefault` does to a key.

The two are told apart from a write and a read, since it looks and adds at once: two of them do not race.
"""
LOOKING = frozenset(("r", "rw", "c", ADDED, FOUND))
CHANGING = frozenset(("w", "rw", "d", ADDED))
_OF_ELEMENTS = {"r": READ, ADDED: ADDITION, FOUND: LOOKUP}

stretch_of = STRETCHES.get


# What touches come to. `told` takes the makings beside them.


def by_kinds(key: Any, thing: Any, kinds: str, site: int) -> Touches:
    """A read, a write or both."""
    if kinds == READ_ONLY:
        return {key: (thing, READ, site)}
    if kinds == "w":
        return {key: (thing, WRITE, site)}
    return {(key, READ): (thing, READ, site), key: (thing, WRITE, site)}


def plain_field(owner: Owner, told: Touches, line: Line | None, site: int) -> Touches:
    access = ACCESSES[site]
    thing = field_of(owner, owner.class_name, access.name, told, line)
    return by_kinds(owner.base + site, thing, access.kinds or READ_ONLY, site)


def named_field(
    owner: Owner, told: Touches, line: Line | None, mark: Any, class_name: str, name: str, kinds: str, site: int,
) -> Touches:
    return by_kinds((owner.base, mark), field_of(owner, class_name, name, told, line), kinds, site)


def shape(owner: Owner, told: Touches, line: Line | None, mark: Any, kind: str, site: int) -> Touches:
    return {(owner.base, mark): (shape_of(owner, told, line), kind, site)}


def cell(owner: Owner, told: Touches, line: Line | None, site: int) -> Touches:
    access = ACCESSES[site]
    if access.name not in owner.things:
        owner.call(access.name, access.text)
        owner.things.setdefault(access.name, shape_of(owner, told, line))
    return by_kinds(owner.base + site, owner.things[access.name], access.kinds, site)


def index_of_deque(
    owner: Owner, told: Touches, line: Line | None, key: int, place: int, kinds: str, site: int,
) -> Touches:
    """An index of a deque, which grows and shrinks at both ends: what stands there depends on the length."""
    touches = index(owner, told, line, key, place, kinds, site)
    if kinds != "w":
        whole = owner.base + site
        del touches[whole, LOOKUP]
        touches[whole, LENGTH] = shape_of(owner, told, line), LENGTH, site
    return touches


def index(owner: Owner, told: Touches, line: Line | None, key: int, place: int, kinds: str, site: int) -> Touches:
    """An index of a list. One from the end depends on the length."""
    whole, of_list = owner.base + site, shape_of(owner, told, line)
    touches: Touches = {}
    if key < 0:
        touches[whole, LENGTH] = of_list, LENGTH, site
    if kinds != "w":
        touches[whole, LOOKUP] = of_list, LOOKUP, site
    if kinds != "r":
        touches[whole, REPLACEMENT] = of_list, REPLACEMENT, site
    _add_element(touches, whole, key, element_of(owner, (place,), place, told, line), kinds, site)
    return touches


def key(
    owner: Owner, told: Touches, line: Line | None, mark: Any, name: Any, kinds: str, change: str, site: int,
) -> Touches:
    """A key of a dictionary or a set, by its mark and its name. `change` is what becomes of the shape."""
    whole, of_all, element = owner.base + site, shape_of(owner, told, line), element_of(owner, mark, name, told, line)
    touches: Touches = {}
    if kinds in LOOKING:
        touches[whole, LOOKUP] = of_all, LOOKUP, site
    if kinds in CHANGING:
        touches[whole, change] = of_all, change, site
        if change is ADDITION and kinds != "d":
            touches[MAKING, element.number] = element, MAKING, site
    _add_element(touches, whole, mark, element, {"c": "r", "d": "w"}.get(kinds, kinds), site)
    return touches


def _add_element(touches: Touches, whole: int, mark: Any, element: Any, kinds: str, site: int) -> None:
    if kinds == "rw":
        touches[whole, mark, READ] = element, READ, site
    touches[whole, mark] = element, _OF_ELEMENTS.get(kinds, WRITE), site


def nothing(owner: Owner, told: Touches, line: Line | None) -> Touches:
    """The mark alone is kept: what it stands for is another owner's."""
    return {}


NOTHING = (nothing,)


def _worked_out(owner: Owner, mark: Any, late: Late, told: Touches, line: Line | None) -> Touches:
    if late is None:
        return plain_field(owner, told, line, mark)
    make: Callable[..., Touches] = late[0]
    return make(owner, told, line, *late[1:])


# What is seen


def saw(owner: Owner, mark: Any, late: Late = None, is_repeated: bool = False) -> None:
    """Keeps a touch, by a mark that is the same for the same touch.

    What is repeated comes to the same in any stretch.
    """
    note = state.note
    if note is None:
        if state.witness is not None:
            touched_all(_worked_out(owner, mark, late, {}, None))
        return
    stretch = stretch_of(get_ident())
    if stretch is None:
        stretch = begin_stretch(note)
    seen = owner.seen
    if seen.stretch is not stretch:
        seen = _begin(owner, stretch)
    if seen.setdefault(mark, late) != late:
        seen[mark, late] = late or (plain_field, mark)  # The same place has touched it in another way before.
    if owner.is_shared:  # It is asked behind the mark: whoever shares it meanwhile looks at the marks once more.
        note_shared(owner, stretch, mark, late, is_repeated)


def note_shared(owner: Owner, stretch: Stretch, mark: Any, late: Late, is_repeated: bool) -> None:
    told: Touches = {}
    touches = owner.recipes.get(mark) if is_repeated else None
    if touches is None:
        touches = _worked_out(owner, mark, late, told, _line_of(stretch))
        if is_repeated:
            if len(owner.recipes) >= MOST_RECIPES:
                owner.recipes.clear()
            owner.recipes[mark] = touches
    if told:
        stretch.update(told)
    stretch.update(touches)


def again(owner: Owner, mark: Any, touches: Touches) -> None:
    """Notes what is known of a shared owner, in another stretch."""
    note = state.note
    if note is None:
        touched_all(touches)
        return
    stretch = stretch_of(get_ident())
    if stretch is None:
        stretch = begin_stretch(note)
    seen = owner.seen
    if seen.stretch is not stretch:
        seen = owner.seen = Seen(stretch)
    stretch.update(touches)
    seen[mark] = NOTHING


def _line_of(stretch: Stretch) -> Line:
    line = stretch.line
    return line.line if isinstance(line, LateJob) else line


def _begin(owner: Owner, stretch: Stretch) -> Any:
    """Another stretch has reached the owner. If it is another task's, the owner is shared from now on."""
    seen = Seen(stretch)
    if not owner.is_shared:
        history = owner.history
        history.append(seen)
        if len(history) % SHORTENED_AT == 0:
            shorten(owner)
        for first in history[:1]:  # There is none, if another task has shared it meanwhile.
            if first.stretch.line is not stretch.line:
                share(owner)
    owner.seen = seen
    return seen


def share(owner: Owner) -> None:
    """Has all that was seen of the owner noted. What others keep meanwhile is looked for once the owner is shared."""
    note = state.note
    if owner.is_sharing or note is None:
        return
    owner.is_sharing = True
    listed: list[tuple[Stretch, Touches]] = []
    try:
        known = _list_marks(owner, listed, {})
        owner.is_shared = True
        _list_marks(owner, listed, known)
        note((LATE, listed))
    except BaseException:
        owner.is_sharing = owner.is_shared = False
        raise
    owner.history.clear()


def _list_marks(owner: Owner, listed: list[tuple[Stretch, Touches]], known: Counted) -> Counted:
    """Adds what the marks come to, but for the first ones of each stretch that are known. Gives how many there were."""
    found: Counted = {}
    for seen in list(owner.history):
        stretch, marks = seen.stretch, seen.copy()  # A copy is made at once.
        found[id(seen)] = seen, len(marks)
        before = known[id(seen)][1] if id(seen) in known else 0
        if stretch is not None and len(marks) > before:
            listed.append((stretch, touches_of(owner, islice(marks.items(), before, None), _line_of(stretch))))
    return found


def touches_of(owner: Owner, marks: Iterable[tuple[Any, Late]], line: Line | None) -> Touches:
    """What these marks of one stretch come to."""
    told: Touches = {}
    touches: Touches = {}
    for mark, late in marks:
        touches.update(_worked_out(owner, mark, late, told, line))
    return {**told, **touches}


_shortening = allocate_lock()
"""Whoever puts other stretches in the place of the first ones of a history has it,
so that nobody else does so meanwhile."""
if hasattr(os, "register_at_fork"):
    os.register_at_fork(after_in_child=_shortening._at_fork_reinit)  # type: ignore[attr-defined]


def shorten(owner: Owner) -> None:
    """Takes together the stretches that one event stands for, with the same locks held: a free lock is no event."""
    if _shortening.acquire(False):
        try:
            history = owner.history
            count = len(history) - 1  # The last one may still grow.
            history[:count] = _taken_together(history[:count])
        finally:
            _shortening.release()


def _taken_together(history: list[Any]) -> list[Any]:
    kept: dict[Any, Any] = {}
    for place, seen in enumerate(history):
        stretch = seen.stretch
        first = kept.setdefault(
            (stretch.events, stretch.held, stretch.loop, stretch.turn) if stretch.events else place, seen,
        )
        if first is not seen:
            _add_marks(first, seen)
    return list(kept.values())


def _add_marks(seen: Any, other: Any) -> None:
    for mark, late in other.items():
        if seen.setdefault(mark, late) != late:
            seen[mark, late] = late or (plain_field, mark)


def _keep_last() -> None:
    """At the end of a part: of what one task alone has touched at one place, the last touch stands for all."""
    with _shortening:
        for owner in list(OWNERS.values()):
            history = owner.history
            count = len(history) - 1
            if count > 0 and not owner.is_sharing:
                history[:count] = _last_of(history[:count])


def _last_of(history: list[Any]) -> list[Any]:
    last: dict[Any, tuple[Any, Late, Stretch]] = {}
    for seen in history:
        stretch = seen.stretch
        if stretch is not None:
            for mark, late in seen.copy().items():
                last[mark, late, stretch.held, stretch.loop] = mark, late, stretch
    kept: dict[int, Any] = {}
    for mark, late, stretch in last.values():
        kept.setdefault(id(stretch), Seen(stretch))[mark] = late
    return list(kept.values())


AT_BORDER.append(_keep_last)
