"""What the command lines of mvt-audit and mvt-page say of servers."""

import argparse
import sys
from typing import List, Optional, Sequence, Tuple

from .. import foreign
from . import Options, Store
from .server import DEEPEST

_OPTIONS = Options()
# What an option says is no more; the system has no longer times.
_MOST = 10**9


def add_to(words: argparse.ArgumentParser) -> None:
    """Adds the options."""
    server = words.add_argument_group("of a server")
    server.add_argument("--zooms", type=_zooms, metavar="A-B", help="its first and last zoom (as its TileJSON says)")
    server.add_argument(
        "--bounds", type=_bounds, metavar="W,S,E,N", help="degrees that its tiles lie between (as its TileJSON says)"
    )
    server.add_argument(
        "--requests", type=positive, default=_OPTIONS.requests, metavar="N", help="requests at a time, at most (8)"
    )
    server.add_argument(
        "--timeout", type=positive, default=_OPTIONS.timeout, metavar="S", help="seconds that a request may take (30)"
    )


def words_of(words: Optional[Sequence[str]]) -> List[str]:
    """The words of a command line, or those of this process, in which bounds that begin with a minus are no option."""
    joined: List[str] = []
    for word in sys.argv[1:] if words is None else words:
        if joined and joined[-1] == "--bounds" and word.startswith("-"):
            joined[-1] += f"={word}"
        else:
            joined.append(word)
    return joined


def options_of(given: argparse.Namespace) -> Options:
    """The options that were given."""
    return Options(given.zooms, given.bounds, given.requests, given.timeout)


def misplaced(given: argparse.Namespace, stores: Sequence[Store]) -> str:
    """Why the options are of none of the stores, in a sentence; nothing where they are of one."""
    if (given.zooms or given.bounds) and all(store.kind != "server" for store in stores):
        return "--zooms and --bounds are of a server, and none is named"
    return ""


def positive(word: str) -> int:
    """A number from 1 on."""
    number = foreign.whole(word, 1, _MOST)
    if number is None:
        raise argparse.ArgumentTypeError(f"{word!r} is no number from 1 on, up to {_MOST:,}")
    return number


def _zooms(word: str) -> Tuple[int, int]:
    begin, _, end = word.partition("-")
    first, last = foreign.whole(begin, 0, DEEPEST), foreign.whole(end or begin, 0, DEEPEST)
    if first is None or last is None or first > last:
        raise argparse.ArgumentTypeError(f"{word!r} is no zoom and no range of zooms such as 0-14")
    return first, last


def _bounds(word: str) -> foreign.Degrees:
    bounds = foreign.degrees(word)
    west, south, east, north = bounds or (999, 999, 999, 999)
    if bounds is None or not (max(abs(west), abs(east)) <= 180 and -90 <= south <= north <= 90):
        raise argparse.ArgumentTypeError(f"{word!r} is no west,south,east,north in degrees")
    return bounds
