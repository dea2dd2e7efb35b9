#!/usr/bin/env python3
"""Makes a tile of points: points.py LAYER Z X Y < points.csv > tile.mvt

The table has a first line with the names of its columns. `lon` and `lat` are the position in degrees, and `id`, if there is
one, is the feature's id. Every other column that isn't empty is an attribute: a number if it reads as one, else a text.
The tile gets the points that lie in it.
"""

import csv
import math
import sys
from typing import Dict, Iterable, Optional, Tuple

import libmvt
from libmvt.mercator import column_of, row_of

EXTENT = 4096


def position(lon: float, lat: float, z: int, x: int, y: int) -> Tuple[int, int]:
    """Where a place lies in the tile, by the projection of web maps."""
    east, south = column_of(lon) * 2**z - x, row_of(lat) * 2**z - y
    return math.floor(east * EXTENT), math.floor(south * EXTENT)


def value_of(text: str) -> libmvt.Value:
    for number in (int, float):
        try:
            return number(text)
        except ValueError:
            pass
    return text


def feature_of(row: Dict[str, str], z: int, x: int, y: int) -> Optional[libmvt.Feature]:
    """The feature of a line of the table, where it lies in the tile."""
    at = position(float(row.pop("lon")), float(row.pop("lat")), z, x, y)
    if not all(0 <= number < EXTENT for number in at):
        return None
    id = row.pop("id", "")
    attributes = {key: value_of(text) for key, text in row.items() if text != ""}
    return libmvt.Feature(int(id) if id else None, attributes, "points", [at])


def tile_of(name: str, rows: Iterable[Dict[str, str]], z: int, x: int, y: int) -> libmvt.Tile:
    features = [feature for row in rows if (feature := feature_of(row, z, x, y))]
    return libmvt.Tile([libmvt.Layer(name, EXTENT, features)])


if __name__ == "__main__":
    if len(sys.argv) != 5:
        sys.exit(__doc__)
    name, *place = sys.argv[1:]
    tile = tile_of(name, csv.DictReader(sys.stdin), *map(int, place))
    try:
        sys.stdout.buffer.write(libmvt.write(tile))
    except libmvt.MvtError as why:
        sys.exit(f"points.py: {why}")
