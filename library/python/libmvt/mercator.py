"""Web Mercator: where on earth the points of the square map lie. The map is 1 wide and 1 high, and its rows are counted from
the north; places are in degrees of WGS 84."""

import math
from operator import index
from typing import Any, Tuple

__all__ = ["EDGE", "column_of", "latitude_of", "longitude_of", "place_of", "row_of"]

# The latitude where the map ends.
EDGE = 85.0511287798066
# Columns and rows lie below it to either side.
_MOST = 1 << 63


def place_of(z: Any, x: Any, y: Any) -> Tuple[int, int, int]:
    """A tile's zoom, column and row, which may lie beyond the map. Raises ValueError where these are none."""
    try:
        place = index(z), index(x), index(y)
    except TypeError:
        place = (-1, 0, 0)
    if not 0 <= place[0] <= 30 or not all(abs(each) < _MOST for each in place):
        raise ValueError("a tile's place is a zoom up to 30, a column and a row")
    return place


def longitude_of(column: float) -> float:
    """The longitude of a column between 0 and 1, in degrees."""
    return column * 360 - 180


def latitude_of(row: float) -> float:
    """The latitude of a row between 0 and 1, in degrees; a row beyond these lies nearer to a pole."""
    return math.degrees(2 * math.atan(math.tanh(math.pi * (0.5 - row))))


def column_of(longitude: float) -> float:
    """The column of a longitude in degrees: 0 at -180, 1 at 180."""
    return (longitude + 180) / 360


def row_of(latitude: float) -> float:
    """The row of a latitude in degrees between the poles: 0 at `EDGE`, 1 at -`EDGE`."""
    return (1 - math.asinh(math.tan(math.radians(latitude))) / math.pi) / 2
