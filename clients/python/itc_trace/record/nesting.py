"""How the program's own threads note what they wait for while they hold a lock: another lock, or an item of a queue."""

from __future__ import annotations

from types import FrameType

from ..model.frames import place
from ..model.lines import Acquisition, Held, Line, state
from ..model.lock_identity import QUEUE, LockIdentity
from ..model.loop_runs import number_of_loop
from .loops import ASYNCIO
from .noting import line_of_now, touched

ACQUIRE = "acquire"
OF_TASKS = ("asyncio.", "trio.", "gevent.", "twisted.")
"""So begin the kinds of locks for which the tasks of a loop wait, and the loop does not."""
MOST_KNOWN = 256
"""So many tasks and places of a queue are known. What is forgotten may be noted once more."""


def note_nested(held: tuple[LockIdentity, ...], has_waited: bool) -> None:
    """The current task has acquired the last of these locks, and holds the others.

    If it would not have waited for it, nobody can wait for its end by that. Two locks may be a lock of readers: one of
    them has the other acquired, is released, and is acquired once more to release that. Readers do not wait for each
    other by that.
    """
    if not has_waited or state.note is None:
        return
    wanted = held[-1]
    places = tuple(Held(one, one.taken_by, one.taken_at) for one in held if wanted not in one.outlived)
    if len(places) < 2:
        return
    key = (ACQUIRE, *((place.lock.serial, id(place.code), place.instruction) for place in places))
    for one in held:
        one.is_nested = True
    loop = 0 if held[-1].kind.startswith(OF_TASKS) else number_of_loop(ASYNCIO.running())
    touched(key, Acquisition(places[-1], places[:-1], loop), ACQUIRE, None)


def note_signal(lock: LockIdentity) -> None:
    """The lock is a signal, as was found out: its acquisitions are none that keep somebody out.

    Of one that processes share, others may have acquired it with locks held.
    """
    tracer = state.tracer
    if (lock.is_nested or lock.across) and tracer is not None:
        tracer.tell_signal(lock)


class Items:
    """What a queue's items are to tasks that hold locks: who waits for them, and who puts them.

    If somebody has put one without a lock, no lock keeps the items from those who wait, and nothing more is noted. Of
    a task the first wait is enough, and the first time that it puts at a line with the same locks held. What is before
    a later one is before that one.
    """

    __slots__ = ("_identity", "_known", "free_in")

    def __init__(self, maker: FrameType | None) -> None:
        self._identity = LockIdentity(QUEUE, maker)
        self._known: set[tuple[object, ...]] = set()
        self.free_in = 0
        """The block of tracing in which somebody has put an item without a lock: nothing more is to be noted in it."""

    def _begin(self) -> None:
        if self._identity.block != state.block:
            self._identity.begin(state.block)
            self._known.clear()

    def wait(self, frame: FrameType | None) -> None:
        """The current task waits for an item, for ever."""
        self._begin()
        if self._identity.signal is None:
            line = line_of_now()
            if line.held:
                self._note(line, line.held, frame, is_gift=False)

    def put(self, frame: FrameType | None) -> None:
        """The current task puts an item. Whoever only tries to acquire a lock does not need it."""
        self._begin()
        if self._identity.signal is not None:
            return
        line = line_of_now()
        needed = tuple(one for one in line.held if not one.is_tried)
        if needed:
            self._note(line, needed, frame, is_gift=True)
        else:
            self.become_free()

    def become_free(self) -> None:
        """No lock is needed for that the wait ends."""
        self._begin()
        self._identity.become_signal()
        self.free_in = state.block
        self._known.clear()
        note_signal(self._identity)

    def _note(self, line: Line, held: tuple[LockIdentity, ...], frame: FrameType | None, is_gift: bool) -> None:
        code, instruction = place(frame)
        where = (id(code), instruction, held) if is_gift else ()
        if (line.number, where) in self._known:
            return
        if len(self._known) >= MOST_KNOWN:
            self._known.clear()
        self._known.add((line.number, where))
        self._identity.is_nested = True
        places = tuple(Held(one, one.taken_by, one.taken_at) for one in held)
        are_awaited = is_gift and all(one.kind.startswith(OF_TASKS) for one in held)
        wait = Acquisition(
            Held(self._identity, code, instruction), places,
            0 if are_awaited else number_of_loop(ASYNCIO.running()), is_gift,
        )
        touched((ACQUIRE, self._identity.serial, where), wait, ACQUIRE, None)
