"""The hash function BLAKE2b (RFC 7693), without the rest of `hashlib`: that loads OpenSSL, which takes megabytes."""

from __future__ import annotations

import importlib
from functools import lru_cache
from typing import TYPE_CHECKING, Any


def _found() -> Any:
    try:
        return importlib.import_module("_blake2").blake2b
    except ImportError:  # Another Python may keep it elsewhere.
        return importlib.import_module("hashlib").blake2b


if TYPE_CHECKING:
    from hashlib import blake2b as blake2b
else:
    blake2b = _found()


@lru_cache(1 << 14)
def number_of(text: str) -> int:
    """A number of 64 bits for the text, which is the same in each process.

    Two of ten million texts have the same number once in 300000 times.
    """
    digest = blake2b(text.encode("utf-8", "surrogatepass"), digest_size=8).digest()
    return int.from_bytes(digest, "little")
