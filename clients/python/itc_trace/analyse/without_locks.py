"""The order that is left without the hand-over of locks, which is luck: another task might have come first.

A second tenant gets every report of the trace but those of locks, and answers what is in order all the same.
"""

from __future__ import annotations

from collections.abc import Iterable
from types import TracebackType

from ..record.collector import Collector
from .order import Order
from ..session import Refused, Session
from .trace import Trace

TENANT = "without_locks"


class WithoutLocks:
    """The second tenant, at a collector of its own."""

    def __init__(self, trace: Trace, locks: set[int]) -> None:
        self._collector = Collector(TENANT)
        self._session: Session | None = None
        self._numbers: dict[int, int] = {}
        try:
            self._session = Session(TENANT, self._collector.port)
            self._order = Order(self._session)
            self._report(self._session, trace, locks)
        except BaseException:
            self.close()
            raise

    def _report(self, session: Session, trace: Trace, locks: set[int]) -> None:
        events = [event for event in trace.events if event.number not in locks]
        for event, reply in zip(events, session.ask(event.report for event in events)):
            if not reply.startswith("201 "):
                raise Refused(event.report, reply)
            self._numbers[event.number] = int(reply[4:])

    def ask(self, pairs: Iterable[tuple[int, int]]) -> None:
        """Has these pairs of events answered."""
        self._order.ask((self._numbers[first], self._numbers[second]) for first, second in pairs)

    def is_concurrent(self, first: int, second: int) -> bool:
        """Whether nothing but locks put the two events in order."""
        return self._order.is_concurrent(self._numbers[first], self._numbers[second])

    @property
    def questions(self) -> int:
        return self._order.questions

    def close(self) -> None:
        if self._session is not None:
            self._session.close()
        self._collector.close()

    def __enter__(self) -> WithoutLocks:
        return self

    def __exit__(
        self, kind: type[BaseException] | None, error: BaseException | None, trace: TracebackType | None
    ) -> None:
        self.close()
