"""Maps of where the broken tiles lie: one square for each zoom, cut to where there are tiles."""

import math
from collections import defaultdict
from typing import Dict, List, NamedTuple, Tuple

from libmvt.mercator import latitude_of, longitude_of

from ..judging import BROKEN, SQUARES
from ..results import Results

# Cells on a side at most; where there are more tiles, a cell is a square of several.
SIDE = 64
# Of a zoom with more tiles than this, cells are made of what the parts have counted.
MANY = 100_000
# A cell is the darker the more of its tiles are broken: shares up to these.
SHADES = (0.25, 0.5, 0.75, 1.0)


class Box(NamedTuple):
    """The tiles of a zoom: a square of them, of so many on a side, and by how many bits a cell's place is shorter."""

    left: int
    top: int
    side: int
    shift: int


class Map(NamedTuple):
    """A map, where it lies, in words, and how many tiles are broken."""

    z: int
    svg: str
    where: str
    tiles: int
    broken: int


def maps(results: Results) -> List[Map]:
    """A map for each zoom that has broken tiles."""
    counted = dict(results.counted("z", "z between 0 and 30"))
    broken = dict(results.counted("z", f"z between 0 and 30 and {BROKEN}"))
    found = []
    for table, zooms in _tables(counted, sorted(broken)).items():
        boxes = _boxes(results, table, zooms)
        cells = _cells(results, table, boxes)
        found += [Map(z, _svg(box, cells[z]), _where(z, box), counted[z], broken[z]) for z, box in boxes.items()]
    return sorted(found)


class Table(NamedTuple):
    """Where the places of a zoom are counted, each with so many tiles, of which so many are broken; and, in SQL, by how
    many bits a place is shorter than a tile's."""

    name: str
    tiles: str
    broken: str
    bits: str


# Places that their zoom has: others are on no map.
_IN_ZOOM = "x between 0 and (1 << z - ({bits})) - 1 and y between 0 and (1 << z - ({bits})) - 1"

_TILES = Table("tiles", "tiles", f"tiles * ({BROKEN})", "0")
_CELLS = Table("cells", "tiles", "broken", f"z - {SQUARES}")


def _tables(counted: Dict[int, int], zooms: List[int]) -> Dict[Table, List[int]]:
    """Tiles are gone through one by one only where a zoom has few."""
    large = [z for z in zooms if z > SQUARES and counted[z] > MANY]
    return {_TILES: [z for z in zooms if z not in large], _CELLS: large}


def _boxes(results: Results, table: Table, zooms: List[int]) -> Dict[int, Box]:
    found: Dict[int, Box] = {}
    if not zooms:
        return found
    query = (
        f"select z, {table.bits}, min(x), max(x), min(y), max(y) from {table.name}"
        f" where {_IN_ZOOM.format(bits=table.bits)} and z in ({', '.join(map(str, zooms))}) group by z"
    )
    for z, bits, left, right, top, bottom in results.database.execute(query):
        side = max(right - left, bottom - top) + 1
        shift = max(0, math.ceil(math.log2(side / SIDE)))
        cells = max((right >> shift) - (left >> shift), (bottom >> shift) - (top >> shift)) + 1
        shift += bits
        found[z] = Box(left << bits >> shift << shift, top << bits >> shift << shift, cells << shift, shift)
    return found


def _cells(results: Results, table: Table, boxes: Dict[int, Box]) -> Dict[int, Dict[Tuple[int, int], float]]:
    """Of each zoom the cells that have tiles, each with the share of broken ones."""
    cells: Dict[int, Dict[Tuple[int, int], float]] = defaultdict(dict)
    shifts = ", ".join(f"({z}, {box.shift})" for z, box in boxes.items())
    if not boxes:
        return cells
    query = (
        f"with shifts(z, shift) as (values {shifts})"
        f" select z, x >> shift - ({table.bits}), y >> shift - ({table.bits}), total({table.broken}) / total({table.tiles})"
        f" from {table.name} join shifts using (z) where {_IN_ZOOM.format(bits=table.bits)} group by 1, 2, 3"
    )
    for z, x, y, share in results.database.execute(query):
        cells[z][x - (boxes[z].left >> boxes[z].shift), y - (boxes[z].top >> boxes[z].shift)] = share
    return cells


def _svg(box: Box, cells: Dict[Tuple[int, int], float]) -> str:
    """The cells, joined to a path for each shade. A broken one is never too small to be seen."""
    count = max(box.side >> box.shift, 1)
    paths: Dict[str, List[str]] = defaultdict(list)
    grow = max(0.0, (count / 90 - 1) / 2)
    for (x, y), share in sorted(cells.items()):
        shade = "good" if share == 0 else f"bad{next(i for i, most in enumerate(SHADES, 1) if share <= most)}"
        side = 1 + 2 * grow if share else 1
        paths[shade].append(f"M{x - grow if share else x:g} {y - grow if share else y:g}h{side:g}v{side:g}h{-side:g}z")
    drawn = "".join(f'<path class="{shade}" d="{"".join(paths[shade])}"/>' for shade in sorted(paths, reverse=True))
    return f'<svg viewBox="0 0 {count} {count}" shape-rendering="crispEdges">{drawn}</svg>'


def _degrees(z: int, x: int, y: int) -> Tuple[float, float]:
    """The longitude and latitude of a corner of tiles."""
    size = 1 << z
    return longitude_of(x / size), latitude_of(y / size)


def _where(z: int, box: Box) -> str:
    if box.side >= 1 << z:
        return "the whole world"
    size = 1 << z
    west, north = _degrees(z, box.left, box.top)
    east, south = _degrees(z, min(box.left + box.side, size), min(box.top + box.side, size))
    digits = 0 if east - west > 10 else 2
    return (
        f"{_side(west, 'E', 'W', digits)} to {_side(east, 'E', 'W', digits)},"
        f" {_side(south, 'N', 'S', digits)} to {_side(north, 'N', 'S', digits)}"
    )


def _side(degrees: float, positive: str, negative: str, digits: int) -> str:
    return f"{abs(degrees):.{digits}f}° {positive if degrees >= 0 else negative}"
