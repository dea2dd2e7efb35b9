"""Stores for the tests of the page in a browser, and for its pictures: make_stores.py FOLDER"""

import gzip
import sys
from pathlib import Path

from serving import TILES, TOP

sys.path.insert(0, str(TOP / "tests" / "tools" / "audit"))

from archives import HEADER, archive, directory  # noqa: E402
from common import make_mbtiles, make_tree  # noqa: E402

GDAL = (TILES / "gdal.mvt").read_bytes()


def broken(name):
    return (TILES / "broken" / f"{name}.mvt").read_bytes()


def town():
    """Zooms 0 to 5 without gaps, and some broken tiles: two of one cause, one of another, one that doesn't unpack."""
    tiles = {(z, x, y): gzip.compress(GDAL) for z in range(6) for x in range(1 << z) for y in range(1 << z)}
    tiles[3, 4, 2] = broken("22-FirstRing")
    tiles[5, 17, 11] = gzip.compress(broken("22-FirstRing"))
    tiles[4, 9, 6] = broken("14-KeyIndex")
    tiles[5, 30, 30] = gzip.compress(GDAL)[:-9]
    del tiles[5, 16, 11]
    return tiles


def small(number):
    return bytes([0x1A, 7, 0x78, 2, 0x0A, 3, 0x61, 0x61 + number % 26, 0x62])


def many():
    """150,000 small tiles, and behind them a broken one."""
    return {
        **{(9, number % 512, number // 512): small(number) for number in range(150_000)},
        (12, 0, 0): broken("22-FirstRing"),
    }


def archive_of(entries, leaves=b"", data=b"x" * 100):
    """An archive of such a root directory and such leaves."""
    content = directory(entries)
    sections = [127, len(content), 127, 0, 127 + len(content), len(leaves), 127 + len(content) + len(leaves), len(data)]
    return HEADER.pack(b"PMTiles", 3, *sections, 0, 0, 0, 1, 1, 1, 1, 0, 31, *[0] * 6)[:127] + content + leaves + data


if __name__ == "__main__":
    folder = Path(sys.argv[1])
    make_mbtiles(folder / "town.mbtiles", town())
    make_mbtiles(folder / "many.mbtiles", many())
    make_mbtiles(folder / "beyond.mbtiles", {(0, 0, 0): GDAL, (0, 1, 0): GDAL})
    (folder / "town.pmtiles").write_bytes(archive(town(), leaf=100, internal=2))
    make_tree(folder / "town", town())
    make_tree(folder / "tree", {place: tile for place, tile in town().items() if place[0] < 4})
    (folder / "list.txt").write_text("tree/3/4/2.mvt\ntree/0/0/0.mvt\ngone.mvt\n")
