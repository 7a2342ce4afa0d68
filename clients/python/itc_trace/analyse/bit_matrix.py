"""Turns a matrix of bits, whose rows are numbers, so that its columns are rows.

A block of it stands in one number, and has halves, quarters and so on swapped by operations on the whole number
(Warren, Hacker's Delight, 7-3).
"""

from __future__ import annotations

from collections import defaultdict
from collections.abc import Iterable, Mapping
from functools import cache

SIDE = 1024
_ROW = (1 << SIDE) - 1


def transposed(rows: Iterable[tuple[int, int]]) -> dict[int, int]:
    """Of each column that has a bit its bits, by the rows that have one there."""
    blocks: dict[int, list[tuple[int, int]]] = defaultdict(list)
    for index, bits in rows:
        blocks[index // SIDE].append((index % SIDE, bits))
    columns: dict[int, int] = defaultdict(int)
    for block, members in blocks.items():
        for column, bits in _columns(members):
            columns[column] |= bits << (block * SIDE)
    return columns


def _columns(rows: list[tuple[int, int]]) -> Iterable[tuple[int, int]]:
    width = max(bits.bit_length() for _, bits in rows)
    for first in range(0, width, SIDE):
        lines = {index: part for index, bits in rows if (part := bits >> first & _ROW)}
        if lines:
            for column, bits in _turned(lines).items():
                yield first + column, bits


def _turned(lines: Mapping[int, int]) -> dict[int, int]:
    size = SIDE // 8
    empty = bytes(size)
    block = int.from_bytes(
        b"".join(lines[index].to_bytes(size, "little") if index in lines else empty for index in range(SIDE)), "little",
    )
    step = SIDE // 2
    while step:
        shift = step * (SIDE - 1)
        swapped = (block ^ block >> shift) & _mask(step)
        block ^= swapped ^ swapped << shift
        step //= 2
    text = block.to_bytes(size * SIDE, "little")
    found = ((column, int.from_bytes(text[column * size:(column + 1) * size], "little")) for column in range(SIDE))
    return {column: bits for column, bits in found if bits}


@cache
def _mask(step: int) -> int:
    """The bits that a step swaps, at their lower places: those whose column has the step's bit,
    and whose row has not."""
    row = sum(1 << column for column in range(SIDE) if column & step)
    size = SIDE // 8
    text = b"".join(row.to_bytes(size, "little") if not index & step else bytes(size) for index in range(SIDE))
    return int.from_bytes(text, "little")
