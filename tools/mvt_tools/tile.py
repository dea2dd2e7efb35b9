"""The command `mvt-tile`, which takes a tile out of a store: `python3 -m mvt_tools.tile` is the same."""

import argparse
import sys
from typing import Optional, Sequence

from libmvt import LIMIT

from . import _given
from ._ending import USAGE, Output
from .bounds import FILE

COMMAND = "mvt-tile"


def _parser() -> argparse.ArgumentParser:
    words = _given.Words(
        prog=COMMAND,
        usage="mvt-tile STORE Z/X/Y [--raw | --mend] > tile.mvt",
        description="Writes a tile of a store, unpacked.",
        epilog="Status: 0 it is written, 1 it doesn't unpack, is too large or can't be mended, 2 the command can't be done as it is,"
        " 3 something can't be read or written, 4 there is too little memory. Without --mend the tile isn't judged.",
    )
    words.add_argument(
        "what",
        nargs="+",
        metavar="STORE Z/X/Y",
        help="where the tile is: a folder {z}/{x}/{y}.mvt or .pbf (.gz too), an .mbtiles or .pmtiles file, a .txt file with"
        " a name on each line, or a server, by the address of its tiles or of its TileJSON; a file with one tile needs no"
        " place. And its place, with Y counted from the north",
    )
    how = words.add_mutually_exclusive_group()
    how.add_argument("--raw", action="store_true", help="as it lies, and not unpacked")
    how.add_argument("--mend", action="store_true", help=_given.MEND)
    return words


def _work(words: Optional[Sequence[str]]) -> int:
    given = _parser().parse_intermixed_args(words)
    what, place = _given.store_and_place(given.what)
    if what is None:
        raise _given.GivenError(USAGE, "out of which store? say it before the place")
    content = _given.stored(what, place, given.raw)
    tile, most = (content, FILE - 1) if given.raw else (_given.plain(content), LIMIT)
    if len(tile) > most:  # what was read is the front
        raise _given.GivenError(_given.REFUSED, f"it has more than {most:,} bytes, which no tile has")
    if given.mend:
        tile = _given.mended(COMMAND, tile)
    output = Output()
    output.bytes(tile)
    output.flush()
    return 0


def main(words: Optional[Sequence[str]] = None) -> int:
    """Runs the command, and answers its status."""
    return _given.run(COMMAND, lambda: _work(words))


if __name__ == "__main__":
    sys.exit(main())
