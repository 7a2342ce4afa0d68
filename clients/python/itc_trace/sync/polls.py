"""What the program asks for whether it is over yet, and what it does with the answer."""

from __future__ import annotations

import sys
from types import CodeType, FrameType

from ..model.answers import YES, Behind, Says, Use, use_of
from ..model.frames import is_internal
from ..model.lock_identity import Poll

_MOST_POLLS = 4096
_polls: dict[tuple[CodeType, int, str, Behind], Poll] = {}


def poll_at(frame: FrameType | None, name: str, says: Says | None) -> Poll | None:
    """The poll that the code of the frame makes. None if all that it does from now on is behind a yes.

    A function that gives the answer back asks for whoever calls it. What the library asks for, or code without a
    source, counts as meant.
    """
    if frame is None or _is_of_library(frame):
        return None
    first, use = frame, use_of(frame.f_code, frame.f_lasti, says)
    if use is None:
        return None
    while use.returns is not None:
        found = _use_by_caller(frame, use)
        if found is None:
            break
        frame, use = found
    return None if use.is_whole else _poll_of(first, name, use.behind)


def _use_by_caller(frame: FrameType, use: Use) -> tuple[FrameType, Use] | None:
    """What the function does with the answer that has called this one. None if that is not known."""
    above, says = frame.f_back, use.returns
    if above is not None and is_internal(above) and above.f_code.co_name == "wait_for":
        above, says = _behind_wait(above), YES
        name = "wait_for"
    else:
        name = frame.f_code.co_name
    if above is None or _is_of_library(above):
        return None
    found = use_of(above.f_code, above.f_lasti, says)
    return (above, found) if found is not None and found.asked == name else None


def _behind_wait(frame: FrameType | None) -> FrameType | None:
    while frame is not None and is_internal(frame):
        frame = frame.f_back
    return frame


def _is_of_library(frame: FrameType) -> bool:
    module = str(frame.f_globals.get("__name__", "")).partition(".")[0]
    return is_internal(frame) or module in sys.stdlib_module_names


def _poll_of(frame: FrameType, name: str, behind: Behind) -> Poll:
    key = frame.f_code, frame.f_lasti, name, behind
    poll = _polls.get(key)
    if poll is None:
        if len(_polls) >= _MOST_POLLS:
            _polls.clear()
        poll = _polls.setdefault(key, Poll(name, behind))
    return poll
