"""What places of the program have touched of one owner in one stretch, in short."""

from __future__ import annotations

from typing import Any

from ..model.lines import Stretch
from .helper import quick

Late = tuple[Any, ...] | None
"""What a touch comes to, to be worked out late: a function of `late` and what it is given.

None stands for a plain field.
"""


class PureSeen(dict[Any, Late]):
    """The marks of the places that have touched an owner in a stretch, with what each touch comes to."""

    __slots__ = ("stretch",)

    def __init__(self, stretch: Stretch | None) -> None:
        self.stretch = stretch


Seen: Any = PureSeen if quick is None else quick.Seen

NEVER = Seen(None)
"""For an owner that nobody has touched. It stays empty."""
