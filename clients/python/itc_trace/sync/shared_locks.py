"""The order that a lock of `multiprocessing` gives between processes:
whoever acquires it comes after its last release. Beside the message of a release stands whether that is luck."""

from __future__ import annotations

import itertools
from collections.abc import Callable

from ..record import following
from ..model.lines import Permit, state
from ..model.lock_identity import LockIdentity
from ..record.messages import Sending, incoming_at
from ..record.shared_names import LONGEST_NAME

_numbers = itertools.count(1)
_MADE = "made "
_BEHIND, _GUARD, _MEANT = ":", "guard", "meant"
"""What the release of a lock says behind its message: others may wait at a condition, or it hands over more than what
the lock encloses."""


def slot_of(name: str | None) -> int | None:
    """The place of a lock among those that processes share, by its name in the system.

    One without a name goes to forked children.
    """
    names = following.shared_names()
    return None if names is None or state.tracer is None else names.slot_of(key_of(name))


def key_of(name: str | None) -> str:
    """What a lock or a semaphore is known by among processes: its name in the system, if it has one."""
    return name or f"{state.tracer.prefix if state.tracer is not None else ''}{next(_numbers)}"


AT_ACQUIRING: list[Callable[[str], None]] = []
"""What is called with the name of such a lock before a task acquires it, where tasks are held."""


def about_to_acquire(lock: LockIdentity | None) -> None:
    """The current task is about to acquire the lock."""
    if lock is not None and AT_ACQUIRING and state.note is not None:
        for tell_of in AT_ACQUIRING:
            tell_of(lock.name)


def keep_name(lock: LockIdentity, name: str | None) -> None:
    """Another process is about to be given the lock, and is to call it as this one does."""
    names = following.shared_names()
    slot = None if names is None or not name else names.slot_of(f"{_MADE}{name}")
    text = "|".join((lock.variable, lock.place, str(lock.number)))
    if names is not None and slot is not None and text.isascii() and len(text) <= LONGEST_NAME:
        names.put(slot, text)


def find_name(lock: LockIdentity, name: str | None) -> None:
    """This process was given the lock. It calls it as the process does that has made it."""
    names = following.shared_names()
    slot = None if names is None or not name else names.slot_of(f"{_MADE}{name}")
    told = "" if names is None or slot is None else names.name_at(slot)
    if told.count("|") == 2:
        variable, place, number = told.split("|")
        lock.is_found(variable, place)
        lock.number = int(number)


def has_taken(slot: int | None, lock: LockIdentity | None = None) -> bool:
    """The current task has acquired the lock, or whatever else is handed over.

    Whether another process has released it: the order of threads is known already.
    """
    names = following.shared_names()
    if slot is None or names is None or not following.has_others():
        return False
    return receive(names.name_at(slot), lock)


def receive(told: str, lock: LockIdentity | None = None, permit: Permit | None = None) -> bool:
    """The current task comes after whoever has told of its release by this text. Whether that is another process."""
    tracer = state.tracer
    name, _, how = told.partition(_BEHIND)
    if not name or tracer is None or name.startswith(f"{tracer.prefix}out_"):
        return False
    if lock is not None and how == _GUARD:
        lock.is_of_condition = True
    words = "from another process" if permit is None else "a permit of another process"
    incoming_at(name, following.frame_of_start(2), words, None if how == _MEANT else lock, permit)
    return True


def is_giving(slot: int | None, lock: LockIdentity | None = None) -> None:
    """The current task is about to release the lock, or to hand over something else."""
    names = following.shared_names()
    if slot is None or names is None or not following.has_others():
        return
    told = tell(lock)
    if told:
        names.put(slot, told)


def tell(lock: LockIdentity | None = None, permit: Permit | None = None) -> str:
    """The message of what the current task has done, as others are told of it. It is empty if nobody takes it.

    Beside that of a lock stands whether it is luck who acquires the lock next.
    """
    is_meant = lock is not None and (lock.signal is not None or lock.encloses_tasks)
    sending = Sending.begin(following.frame_of_start(2), lock=None if is_meant else lock, permit=permit)
    name = (None if sending is None else sending.name()) or ""
    if lock is None or not name or lock.is_luck and not is_meant:
        return name
    return f"{name}{_BEHIND}{_MEANT if is_meant else _GUARD}"
