"""Code of watched modules that runs as tracing begins, and has no hooks. It goes on as it is: a frame keeps its code.

The functions and classes that it is still to define have hooks: their code is a constant of it, and is replaced.
"""

from __future__ import annotations

import os
from types import CodeType
from typing import Any

from ..model.verdict import Cause, PassedOver, Unseen
from ..record.tuple_items import put_item
from . import begun_loops
from .rewrite import PREFIX

MODULE = "<module>"
DEFINED = ("<lambda>", "<generic parameters of ")
"""So begin the names in angle brackets of what is defined. A comprehension has such a name, too."""
WHAT = "code that ran already"

_begun: dict[int, CodeType] = {}
"""What has no hooks, and would have some."""
_plain: dict[str, None] = {}
"""What is defined without hooks, as it could not be replaced."""
_running: dict[PassedOver, None] = {}
"""What ran as the block of now began."""


def define_with_hooks(codes: dict[str, dict[Any, CodeType]], mark_of: Any, fits: Any) -> None:
    """From here on all that runs of these files defines with hooks what it defines."""
    done: set[int] = set()
    for frame in begun_loops.frames():
        code = frame.f_code
        made = codes.get(code.co_filename)
        if made is None or id(code) in done:
            continue
        done.add(id(code))
        with_hooks = made.get(mark_of(code))
        if code.co_name == MODULE or with_hooks is not None and _has_own_hooks(with_hooks):
            _begun[id(code)] = code
        for place, one in enumerate(code.co_consts):
            new = made.get(mark_of(one)) if _is_defined(one) else None
            if new is not None and fits(new, one) and not put_item(code.co_consts, place, new):
                _plain[f"{one.co_name} at {os.path.basename(one.co_filename)}:{one.co_firstlineno}"] = None


def _is_defined(constant: object) -> bool:
    if type(constant) is not CodeType:
        return False
    return not constant.co_name.startswith("<") or constant.co_name.startswith(DEFINED)


def _has_own_hooks(code: CodeType) -> bool:
    return any([name.startswith(PREFIX) for name in code.co_names])


def begin() -> None:
    """A block begins."""
    _running.clear()
    if _begun:
        for frame in begun_loops.frames():
            if _begun.get(id(frame.f_code)) is frame.f_code:
                place = f"{os.path.basename(frame.f_code.co_filename)}:{frame.f_lineno}"
                _running[PassedOver(WHAT, place)] = None


def running() -> list[PassedOver]:
    """What of the code that ran as the block began no hook looks into."""
    return [*_running]


def unseen() -> list[Unseen]:
    """What may have been defined since, and was not watched."""
    if not _plain:
        return []
    return [
        Unseen(Cause.MODULE, f"what was defined behind the begin of tracing was not watched: {', '.join(_plain)}")
    ]
