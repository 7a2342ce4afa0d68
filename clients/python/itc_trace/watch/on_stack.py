"""Gives a hook what an expression keeps on the stack of its frame while the rest of the expression is evaluated.

A syntax tree has no word for such a value. A constant stands there instead, and an instruction takes its place in the
compiled code, which copies the value. So no name is bound, and whatever frees the value in the plain program frees it
here.

How deep the value lies is asked of the compiler: it compiles the form of the expression, in which KEPT is the value,
and HERE the copy.
"""

from __future__ import annotations

import ast
import dis
import functools
from types import CodeType
from typing import Any

KEPT, HERE = "KEPT", "HERE"
MARK = "itc_trace: a value on the stack"
WANTED = "_itc_wanted"
"""Stands for the object whose method is called, until the whole call is known."""

ITEM = "KEPT[hook(HERE)]"
ITEM_ADDED_TO, KEY_ADDED_TO = "KEPT[key] += hook(value, HERE)", "one[KEPT] += hook(value, one, HERE)"
FIELD_ADDED_TO = "KEPT.field += hook(value, HERE)"
ADDED_TO = "KEPT += after(hook(HERE), value)"
LOOKED_FOR = "KEPT in hook(one, HERE)"
GIVEN_FIRST = "function(KEPT, hook(HERE))"
CALLED = "keep(KEPT, {0}({1}))"
METHOD, BEHIND_HOOK, WITH_OWNER = "{0}.method", "hook({0}.method)", "hook({0}, one.method)"
OF_LOOP = "for one in KEPT:\n if not (loops and site in loops and hook(HERE)): pass"
OF_OWNER = "hook(KEPT, HERE.method)"

_COPY, _LOAD, _MORE = (dis.opmap.get(name) for name in ("COPY", "LOAD_CONST", "EXTENDED_ARG"))
_PAIR = 2
"""The bytes of an instruction: what it does, and its argument."""
BITS_OF_BYTE, LAST_BYTE = 8, 0xFF


@functools.lru_cache(maxsize=None)
def depth(form: str) -> int:
    """How far from the top the value lies where its copy is wanted."""
    if _COPY is None:
        raise NotImplementedError("this Python has no instruction that copies a value of the stack")
    height = kept = 0
    for one in dis.get_instructions(compile(form, MARK, "exec")):
        if one.argval == HERE:
            return height - kept + 1
        height += dis.stack_effect(one.opcode, one.arg, jump=False)
        kept = height if one.argval == KEPT else kept
    raise ValueError(form)


def copy(form: str, node: ast.AST, further: int = 0) -> ast.expr:
    """What stands for the value, at the place of a node. So many further values may lie on it than the form says."""
    return ast.copy_location(ast.Constant((MARK, depth(form) + further)), node)


def wanted(node: ast.AST) -> ast.expr:
    """What stands for the object whose method is called."""
    return ast.copy_location(ast.Name(WANTED, ast.Load()), node)


def place_of_wanted(hook: Any) -> int | None:
    """Which argument of a hook is to be that object, if one is."""
    words = hook.args if isinstance(hook, ast.Call) else []
    return next((place for place, one in enumerate(words) if isinstance(one, ast.Name) and one.id == WANTED), None)


def form_of_call(node: ast.Call, function: str, hooked: int | None = None) -> str:
    """The form of a call that is kept within another one, for the hook at one of its arguments, or else for the
    function itself.

    The arguments are counted with those that have names. Their number and their stars say how the compiler puts them on
    the stack.
    """
    words = ["*a" if isinstance(one, ast.Starred) else "a" for one in node.args]
    words += [f"k{place}=a" if one.arg is not None else "**a" for place, one in enumerate(node.keywords)]
    if hooked is None:
        return CALLED.format(function.format(HERE), ", ".join(words))
    given: list[Any] = [*node.args, *(one.value for one in node.keywords)]
    before = "a, " * (place_of_wanted(given[hooked]) or 0)
    words[hooked] = words[hooked].removesuffix("a") + f"hook({before}{HERE})"
    return CALLED.format(function.format("one"), ", ".join(words))


@functools.lru_cache(maxsize=None)
def form_of_argument(kept: int, hooked: int) -> str:
    """The form of a call with a hook at one of its arguments, for the value of one before it.

    The hook is given those before that first.
    """
    words = ["a"] * hooked
    words[kept] = KEPT
    return f"function({', '.join(words)}, hook(a, {'a, ' * kept}{HERE}))"


def with_copies(code: CodeType) -> CodeType:
    """The code with instructions that copy where constants stand for them, and so all code within it."""
    made = [*code.co_consts]
    depths: dict[int, int] = {}
    is_changed = False
    for place, one in enumerate(code.co_consts):
        if type(one) is CodeType:
            made[place] = with_copies(one)
            is_changed = is_changed or made[place] is not one
        elif type(one) is tuple and one[:1] == (MARK,):
            depths[place], made[place] = one[1], None
    if depths:
        return code.replace(co_code=_copying(code.co_code, depths), co_consts=tuple(made))
    return code.replace(co_consts=tuple(made)) if is_changed else code


def _copying(code: bytes, depths: dict[int, int]) -> bytes:
    """The instructions, with copies of what is so deep in place of these constants."""
    made = bytearray(code)
    for number, depth_of_value in depths.items():
        loading = bytes((int(_LOAD or 0), number & LAST_BYTE))
        at = code.find(loading)
        while at >= 0:
            widening = _widening(code, at)
            if at % _PAIR == 0 and _widened(code, widening) == number >> BITS_OF_BYTE:
                made[at], made[at + 1] = int(_COPY or 0), depth_of_value
                for wider in widening:
                    made[wider + 1] = 0
            at = code.find(loading, at + 1)
    return bytes(made)


def _widening(code: bytes, at: int) -> range:
    """Where the instructions are that widen the argument of another one. They stay, and add nothing to a copy."""
    first = at
    while first >= _PAIR and code[first - _PAIR] == _MORE:
        first -= _PAIR
    return range(first, at, _PAIR)


def _widened(code: bytes, widening: range) -> int:
    return int.from_bytes(bytes([code[at + 1] for at in widening]), "big")
