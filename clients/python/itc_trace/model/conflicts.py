"""The kinds of touches, and which two of them conflict: in either order they may come to different ends."""

from __future__ import annotations

READ, WRITE = "read", "write"
LOOKUP, LENGTH, KEYS, ITERATION = "lookup", "length", "keys", "iteration"
ADDITION, REMOVAL, REPLACEMENT, REWRITE = "addition", "removal", "replacement", "rewrite"
INNER_READ, INNER_WRITE = "inner read", "inner write"
"""What is touched is a part of the thing, and nobody looks which, or what is done with the thing is not known."""
ATOMIC_READ, ATOMIC_WRITE = "atomic read", "atomic write"
"""A handle of Java touches the variable in a mode that does not race with another one of this kind."""
MAKING = "making"
"""The thing is made here. It conflicts with nothing, and tells whose the thing was at first."""

STEP = "step"
"""A loop through the thing goes on, which looked at it in an earlier turn of its event loop.

It conflicts with nothing by itself.
"""

BY_VALUE, BY_KEY, FLAG, GIVEN = "value", "key", "flag", "given"
"""How a change goes with an earlier one of its task: it takes away by its value, or by its key, what the task has put
there, or gives back what it has taken. It sets a flag that the task has set. Or its function was given what it puts or
takes away, and has looked at nothing.
"""
GUARDED_VALUE, GUARDED_KEY = f"guarded {BY_VALUE}", f"guarded {BY_KEY}"
"""The same, if the earlier change was made only behind a look at what it changes. A flag always is."""

_PAIRS = (
    *((WRITE, kind) for kind in (WRITE, READ, LOOKUP, LENGTH, ITERATION, ADDITION, REWRITE)),
    *((REWRITE, kind) for kind in (REWRITE, READ, LOOKUP, LENGTH, ITERATION, ADDITION)),
    *((ADDITION, kind) for kind in (READ, LENGTH, ITERATION)),
    *((KEYS, kind) for kind in (WRITE, ADDITION, REMOVAL, REWRITE)),
    *((REMOVAL, kind) for kind in (REMOVAL, READ, WRITE, LOOKUP, LENGTH, ITERATION, ADDITION, REPLACEMENT, REWRITE)),
    *((REPLACEMENT, kind) for kind in (READ, WRITE, ITERATION, REWRITE)),
    *((INNER_WRITE, kind) for kind in (INNER_WRITE, INNER_READ, WRITE, READ)),
    (INNER_READ, WRITE), (INNER_READ, REPLACEMENT),
    *((ATOMIC_WRITE, kind) for kind in (READ, WRITE, INNER_READ, INNER_WRITE)),
    *((ATOMIC_READ, kind) for kind in (WRITE, INNER_WRITE)),
)

CONFLICTING: dict[str, frozenset[str]] = {
    kind: frozenset({one for pair in _PAIRS if kind in pair for one in pair if one != kind or pair == (kind, kind)})
    for kind in (
        READ, WRITE, LOOKUP, LENGTH, KEYS, ITERATION, ADDITION, REMOVAL, REPLACEMENT, REWRITE, INNER_READ, INNER_WRITE,
        ATOMIC_READ, ATOMIC_WRITE, MAKING, STEP,
    )
}
"""Of each kind those that conflict with it."""

CHANGING = frozenset({WRITE, REWRITE, ADDITION, REMOVAL, REPLACEMENT, INNER_WRITE, ATOMIC_WRITE})
"""The kinds that change a thing. Of two kinds that conflict, one is among them."""
