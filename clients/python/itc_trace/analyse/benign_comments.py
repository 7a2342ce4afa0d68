"""The comments `itc: benign` of source files: `#` begins one in Python, and `//` in Java, Kotlin, Go and Rust.

A text that reads the same is none, nor is a comment between `/*` and `*/`.
"""

from __future__ import annotations

import re
import tokenize
from functools import cache
from pathlib import PurePath

MEANT = re.compile(r"(?:#|//)\s*itc:\s*benign\b")
_TEXT, _LETTER = r'"(?:\\.|[^"\\\n])*"', r"'(?:\\.|[^'\\\n])*'"
_BLOCK_TEXT = r'"""(?:\\.|[^\\])*?"""'
_RAW_TEXT = r'"""(?:.*?)"""+'
_GO_TEXT = "`[^`]*`"
_RUST_TEXT = r'\b[bc]?r(?P<hashes>#*)".*?"(?P=hashes)|"(?:\\.|[^"\\])*"'
_RUST_LETTER = r"'(?:\\[^']+|\\'|[^'\\\n])'"
_COMMENT = r"(?P<block>/\*)|(?P<line>//[^\n]*)"
_OF_A_LANGUAGE = {
    ending: re.compile("|".join((*texts, _COMMENT)), re.DOTALL) for ending, texts in (
        (".java", (_BLOCK_TEXT, _TEXT, _LETTER)), (".kt", (_RAW_TEXT, _TEXT, _LETTER)),
        (".go", (_GO_TEXT, _TEXT, _LETTER)), (".rs", (_RUST_TEXT, _RUST_LETTER)),
    )
}
"""What a text or a comment is in each language, by the ending of its files."""
_NESTED = frozenset((".kt", ".rs"))
"""Those in which a comment between `/*` and `*/` may stand in another one."""
_EDGE = re.compile(r"/\*|\*/")


@cache
def lines_with_comment(path: str) -> frozenset[int]:
    """The lines of a source file that have the comment. There are none in a file that cannot be read."""
    ending = PurePath(path).suffix
    try:
        if ending not in _OF_A_LANGUAGE:
            return _lines_of_python(path)
        with open(path, encoding="utf-8", errors="replace") as source:
            return frozenset(_lines_of(source.read(), ending))
    except (OSError, SyntaxError, UnicodeDecodeError, tokenize.TokenError):
        return frozenset()


def _lines_of_python(path: str) -> frozenset[int]:
    with tokenize.open(path) as source:
        tokens = list(tokenize.generate_tokens(source.readline))
    return frozenset(
        token.start[0] for token in tokens if token.type == tokenize.COMMENT and MEANT.match(token.string)
    )


def _lines_of(source: str, ending: str) -> set[int]:
    found, place, form = set(), 0, _OF_A_LANGUAGE[ending]
    while (piece := form.search(source, place)) is not None:
        place = piece.end()
        if piece["line"] is not None and MEANT.match(piece["line"]):
            found.add(source.count("\n", 0, piece.start()) + 1)
        elif piece["block"] is not None:
            place = _end_of_block(source, place, ending in _NESTED)
    return found


def _end_of_block(source: str, place: int, is_nested: bool) -> int:
    """The place behind a comment whose beginning stands before the given one."""
    depth = 1
    while depth and (edge := _EDGE.search(source, place)) is not None:
        place = edge.end()
        if edge[0] == "*/":
            depth -= 1
        elif is_nested:
            depth += 1
    return place if depth == 0 else len(source)
