"""What processes hand over by semaphores, by items that are done, and by barriers.

The permits of a semaphore are handed on first in, first out, those of the beginning first: an acquire comes after the
one release whose permit it takes. How many were taken and given is counted where all processes see it, and so are the
messages of those who gave one. A semaphore of one permit is a lock as well, as long as whoever acquired it releases it.
"""

from __future__ import annotations

from collections.abc import Callable
from types import FrameType
from typing import Any

from ..model.lines import SEMAPHORE, CountedPermits, Permit, PermitToken, Token, state
from ..model.lock_identity import LockIdentity
from ..record import following
from ..record.noting import line_of_now, mark, mark_permits, take, take_permit
from ..record.shared_names import OF_LOCK, OF_PROGRAM, Counted
from .locks import OnePermit, became_signal, gave, took
from .shared_locks import about_to_acquire, find_name, key_of, receive, tell

KIND = "multiprocessing.Semaphore"
MOST_PARTIES = Counted.most // 2
"""Those who meet a second time may come before all have left the first one."""


class PermitAsLock(OnePermit):
    """The one permit of a semaphore of processes, as a lock that a task of this process may hold.

    Who has given the permit that somebody takes is counted beside it.
    """

    __slots__ = ()

    @property
    def handed_over(self) -> LockIdentity | None:
        """The lock that another process hands over by its release, if it is one."""
        return None if self._itc_identity.signal is not None else self._itc_identity

    def hold(self, token: Token | None, has_waited: bool, is_only: bool) -> None:
        """The current task has acquired it, behind the place of the token. It is no lock if more permits are out."""
        self._itc_identity.times += 1
        if not is_only:
            became_signal(self._itc_identity)
        if self._itc_identity.signal is None:
            self._itc_token = token
            took(self, has_waited)
        else:
            take(token)

    def let_go(self) -> Token | None:
        """The current task is about to release it. Gives the token of its place.

        Whoever has not acquired it gives a permit to another task, also to one of another process.
        """
        holder = self._itc_holder
        if state.note is None:
            return None
        if holder is None or holder.tracer is not state.tracer:
            became_signal(self._itc_identity)
            return mark(SEMAPHORE)
        gave(self)
        token, self._itc_token = self._itc_token, None
        return token


class SharedPermits:
    """The permits of one semaphore, as this process uses it."""

    def __init__(self, semlock: Any, counted: Counted, frame: FrameType | None = None) -> None:
        self._semlock = semlock
        self._counted = counted
        self._given: dict[int, Token | None] = {}
        """Where a task of this process gave a permit, by the number of its release."""
        self.one: PermitAsLock | None = None
        self._first = counted.first
        self._permits = None if self._first is None else CountedPermits(f"across{counted.slot}")
        if counted.is_lock:
            self.one = PermitAsLock(KIND, frame)
            if frame is None and semlock is not None:
                find_name(self.one._itc_identity, semlock.name)
            self.one._itc_identity.across = f"across{counted.slot}"

    @staticmethod
    def made(semlock: Any, count: int, maker: FrameType | None) -> SharedPermits | None:
        """Those of a semaphore that is made here. None if processes share nothing.

        One permit of a program's own semaphore, which knows its maker, is a lock.
        """
        names, of = following.shared_names(), 0 if maker is None else OF_LOCK if count == 1 else OF_PROGRAM
        counted = None if names is None else names.begin_count(key_of(semlock.name), count, of)
        return None if counted is None else SharedPermits(semlock, counted, maker)

    @staticmethod
    def given(semlock: Any) -> SharedPermits | None:
        """Those of a semaphore that was made by another process. None if nobody counts them."""
        names = following.shared_names()
        counted = None if names is None or not semlock.name else names.find_count(key_of(semlock.name))
        return None if counted is None else SharedPermits(semlock, counted)

    @property
    def identity(self) -> LockIdentity | None:
        """That of a lock, if it is one."""
        return None if self.one is None else self.one._itc_identity

    def acquire(self, block: bool = True, timeout: float | None = None) -> bool:
        about_to_acquire(self.identity)
        is_acquired = bool(self._semlock.acquire(block, timeout))
        if is_acquired:
            self.was_acquired(block and timeout is None)
        return is_acquired

    def was_acquired(self, has_waited: bool = True) -> None:
        number, name, is_only = self._counted.take()
        if state.note is None:
            return
        token = self._given.pop(number, None)
        permits = self._counted_now()
        if permits is not None:
            take_permit(permits, token, has_waited)
        if token is None and name:
            taken = None if permits is None else (permits, permits.taken.get(line_of_now(), 0))
            receive(name, None if self.one is None else self.one.handed_over, taken)
        if self.one is not None:
            self.one.hold(token, has_waited, is_only)
        elif permits is None:
            take(token)

    def _token_of_release(self, permits: CountedPermits | None) -> Token | None:
        if permits is not None:
            return mark_permits(permits, 1)
        return mark(SEMAPHORE) if self.one is None else self.one.let_go()

    def _counted_now(self) -> CountedPermits | None:
        """How many each task of this process has given and taken, if they are of the program's own semaphore.

        None if too many have, which is told, as other processes count theirs.
        """
        permits = self._permits
        if permits is not None and permits.block != state.block:
            permits.begin(self._first or 0, state.block)
        if permits is None or not permits.is_over:
            return permits
        if state.tracer is not None:
            state.tracer.count_permits(permits)
        return None

    def release(self) -> None:
        self.give(self._semlock.release)

    def give(self, release: Callable[[], object]) -> None:
        """The current task gives a permit, by this call."""
        permits, permit = self._counted_now(), None
        token = self._token_of_release(permits)
        if permits is not None and isinstance(token, PermitToken):
            permit = permits, token.number
        name = _name(self.identity, permit)
        number = self._counted.give(name, release)
        if token is not None:
            self._given[number] = token
            self._given.pop(number - self._counted.most, None)


def _name(lock: LockIdentity | None = None, permit: Permit | None = None) -> str:
    """The message of what the current task has done, if there is another process to receive it."""
    return tell(lock, permit) if following.has_others() else ""


def counted_of(kind: str, name: str | None, is_made: bool) -> Counted | None:
    """What is counted of a queue or a barrier that this process makes, or that it was given. None if nothing is."""
    names = following.shared_names()
    if names is None or not is_made and not name:
        return None
    key = f"{kind}{key_of(name)}"
    return names.begin_count(key, 0) if is_made else names.find_count(key)


class SharedEnds:
    """Where each task has said last that an item of a queue is done, as other processes are told."""

    def __init__(self, counted: Counted) -> None:
        self._counted = counted
        self._mine: dict[int, int] = {}
        """The place of each task of this process, by the number of its line."""

    def add(self) -> None:
        line, name = line_of_now().number, _name()
        if not name:
            return
        if line in self._mine:
            self._counted.put_name(self._mine[line], name)
            return
        self._mine[line] = self._counted.arrive(name)
        if self._mine[line] >= self._counted.most:
            following.is_not_followed("a queue whose items more than 32 tasks do")

    def take(self) -> None:
        """The current task comes after each of them. What tasks of this process did, it knows by itself."""
        for number in range(min(self._counted.count, self._counted.most)):
            receive(self._counted.name_of(number), None)


class SharedMeetings:
    """Who has arrived at a barrier, as other processes are told: all who leave come after all who arrived with them."""

    def __init__(self, counted: Counted, parties: int) -> None:
        self._counted = counted
        self._parties = parties

    def arrive(self) -> int:
        return self._counted.arrive(_name())

    def leave(self, number: int) -> None:
        first = number - number % self._parties
        for one in range(first, first + self._parties):
            receive(self._counted.name_of(one), None)
