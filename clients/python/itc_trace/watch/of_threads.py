"""What a thread keeps in a `threading.local`, as a client of a service, belongs to that thread.

Jobs of a pool that find it there are run by that thread one after another. So is what only it refers to.
"""

from __future__ import annotations

from _thread import get_ident
from builtins import id, list, vars
from sys import getrefcount
from threading import local as local_of_library
from typing import Any

from ..model.lines import Stretch
from ..model.stretches import STRETCHES
from .given_away import owners_if_alone
from .things import KEPT, OWNERS, Owner

_fields_of_local: Any = vars(local_of_library)["__getattribute__"]
"""Gives those of the thread that asks. It runs no code of the program, as the class has no `__init__` of its own."""
OF_LOCAL_ALONE = 3
"""How many references are counted of what only a `threading.local` refers to: that, a variable and an argument."""


class Kept:
    """Stands among the things of an owner for the thread that keeps it."""

    __slots__ = ("identity", "stretch", "is_gone")

    def __init__(self) -> None:
        self.identity = 0
        self.stretch: Stretch | None = None
        """In which it was found last."""
        self.is_gone = False


def find_in_local(local: Any, name: str) -> None:
    """A thread asks its `threading.local`. What others refer to, too, is nobody's own."""
    value = _fields_of_local(local, "__dict__").get(name)
    owner = OWNERS.get(id(value))
    if owner is None:
        return
    thread = get_ident()
    stretch = STRETCHES.get(thread)
    kept = owner.things.get(KEPT)
    if kept is None or kept.stretch is not stretch or stretch is None:
        more = getrefcount(value) - OF_LOCAL_ALONE
        for one in owners_if_alone(value, more):
            _keep(one, thread, stretch)


def _keep(owner: Owner, thread: int, stretch: Stretch | None) -> None:
    kept = owner.things.setdefault(KEPT, Kept())
    kept.stretch = stretch
    if kept.identity != thread:
        for thing in list(owner.things.values()):
            thing.identity = thread
