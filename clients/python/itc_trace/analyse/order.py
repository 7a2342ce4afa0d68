"""How pairs of events are ordered: by questions to the collector. Each is asked once."""

from __future__ import annotations

from collections.abc import Iterable

from ..session import Refused
from .trace import Asked

Answer = str


class Order:
    """The order of pairs of events, as one tenant answers."""

    def __init__(self, view: Asked) -> None:
        self._view = view
        self._answers: dict[tuple[int, int], Answer] = {}
        self.questions = 0

    def ask(self, pairs: Iterable[tuple[int, int]]) -> None:
        """Has these pairs of events answered."""
        wanted = [pair for pair in dict.fromkeys(pairs) if pair not in self._answers]
        self.questions += len(wanted)
        for pair, reply in zip(wanted, self._view.ask(f"order {first} {second}" for first, second in wanted)):
            if not reply.startswith("200 "):
                raise Refused(f"order {pair[0]} {pair[1]}", reply)
            self._answers[pair] = reply[4:]

    def is_concurrent(self, first: int, second: int) -> bool:
        """Whether nothing puts the two events in order."""
        if (first, second) not in self._answers:
            self.ask([(first, second)])
        return self._answers[first, second] == "concurrent"
