"""The store of the shop: see `shop.py`. Usage: store.py FOLDER [fixed]"""

import sys
from pathlib import Path

import itc_trace


def hand_on(folder: Path) -> None:
    """Has the sales come after this, by a message in a file."""
    fresh = folder / "store.fresh"
    fresh.write_text(itc_trace.outgoing() or "none")
    fresh.rename(folder / "store.done")


def main() -> None:
    folder = Path(sys.argv[1])
    itc_trace.touch("stock file", across=True)  # race: shop
    left = int((folder / "stock").read_text())
    itc_trace.touch("stock file", write=True, across=True)  # race: shop
    written = folder / "store.stock"
    written.write_text(str(left + 10))
    written.rename(folder / "stock")
    if sys.argv[2:] == ["fixed"]:
        hand_on(folder)
    print("the store has bought 10")


main()
