"""Where faults stand, and what the program says of them, as places.py finds it: of the broken tiles, of inputs that are no
tiles, of changed tiles, and of tiles whose tags and geometry are spelled in pieces."""

import gzip
import sys
from collections import Counter
from pathlib import Path

import places
import pytest
from wire import field

TOP = Path(__file__).resolve().parents[2]
TILES = TOP / "fixtures" / "tiles"
sys.path.insert(0, str(TOP / "tests" / "library"))

from mutate import changed  # noqa: E402

SENTENCES = places.documented()
CHANGED = list(changed(3000, [(TILES / f"{name}.mvt").read_bytes() for name in ("gdal", "postgis")]))
IN_PIECES = places.in_many_pieces(1000)
STEP = 100


def failure(run, tile):
    """Why what is said of a tile is wrong, if it is refused and that is wrong; and the cause."""
    status, output, told = run("explain", tile=tile)
    if status == 0:
        return None, None
    *lines, rest = output.decode().split("\n")
    cause = told.rpartition(" ")[2].strip()
    is_mended = cause in ("ZeroSegment", "FirstRing") and run("mend", tile=tile).status == 0
    why = f"status {status}" if status != 1 or rest else places.failure(tile, told, lines, SENTENCES, is_mended)
    return why, cause


@pytest.mark.parametrize("path", sorted((TILES / "broken").glob("*.mvt*")), ids=lambda it: it.name)
def test_broken(run, path):
    content = path.read_bytes()
    why, cause = failure(run, gzip.decompress(content) if path.suffix == ".gz" else content)
    assert cause and not why


def test_names_that_terminals_obey(run):
    """DEL, the controls of C1 and what turns a line round are spelled, as JSON spells what it has to; others aren't."""
    name = "\x1b[2J\x7f\x80\u009b2J\u009f\u00a0\u061c\u200d\u200e\u202a\u202e\u2066\u2069\u206a\u00e9"
    line = field(3, 2) + field(4, bytes([9, 4, 4, 10, 0, 0]))
    tile = field(3, field(15, 2) + field(1, name.encode()) + field(2, line))
    told = (
        r"\u001b[2J\u007f\u0080\u009b2J\u009f"
        + "\u00a0"
        + r"\u061c"
        + "\u200d"
        + r"\u200e\u202a\u202e\u2066\u2069"
        + "\u206a\u00e9"
    )
    assert run("explain", tile=tile).output.decode().split("\n")[0] == f'layer 0 "{told}", feature 0'
    assert failure(run, tile) == (None, "ZeroSegment")


@pytest.mark.parametrize("name", places.NO_TILES)
def test_no_tile(run, name):
    why, cause = failure(run, places.NO_TILES[name])
    assert cause and not why


def are_right(run, tiles):
    """Each is right, by its place in the list; most are refused."""
    found = [failure(run, tile) for tile in tiles]
    assert not {number: why for number, (why, _) in enumerate(found) if why}
    causes = Counter(cause for _, cause in found if cause)
    assert len(causes) > 1 and causes.total() > len(tiles) / 4


@pytest.mark.parametrize("first", range(0, len(CHANGED), STEP))
def test_changed(run, first):
    are_right(run, CHANGED[first : first + STEP])


@pytest.mark.parametrize("first", range(0, len(IN_PIECES), STEP))
def test_in_pieces(run, first):
    are_right(run, IN_PIECES[first : first + STEP])
