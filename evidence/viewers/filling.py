"""Which pixels of a tile's picture a polygon fills: by the even-odd rule, and as MapLibre fills it. A pixel is filled where its
centre is, by whole numbers alone; of centres on an edge those on a left or a lower one are, as where a viewer draws."""
import mapbox_earcut
import numpy

SIZE = 512
UNITS = 8192  # of a tile in MapLibre and Mapbox GL, whatever its extent
MOST_RINGS = 500  # of a polygon there: of the holes beyond these the smallest are left out


def box_of(rings, extent):
    """The pixels that rings may fill: left, top, right and bottom, the last two behind them."""
    points = numpy.array([point for ring in rings for point in ring] or [(0, 0)], dtype=numpy.int64)
    least, most = points.min(axis=0) * SIZE // extent - 1, points.max(axis=0) * SIZE // extent + 2
    return (*numpy.clip(least, 0, SIZE), *numpy.clip(most, 0, SIZE))


def crossings(starts, ends, extent, box):
    """Where edges cross the rows of centres: of each crossing its edge, its row, and the first column whose centre isn't left
    of it, in the box."""
    left, top, right, bottom = box
    is_level = starts[:, 1] == ends[:, 1]
    is_up = starts[:, 1] > ends[:, 1]
    low, high = numpy.where(is_up[:, None], ends, starts), numpy.where(is_up[:, None], starts, ends)
    # Everything is in parts of a unit: `extent` of them are half a pixel.
    low, high = low * (2 * SIZE), high * (2 * SIZE)
    first, behind = (numpy.clip((side[:, 1] - extent) // (2 * extent) + 1, top, bottom) for side in (low, high))
    counts = numpy.where(is_level, 0, behind - first)
    edge = numpy.repeat(numpy.arange(len(starts)), counts)
    row = numpy.arange(counts.sum()) - numpy.repeat(numpy.cumsum(counts) - counts, counts) + first[edge]
    wide, tall = (high - low)[edge].T
    # x = low.x + (centre - low.y) * wide / tall; the first column with (2 * column + 1) * extent >= x
    over = (low[edge, 0] - extent) * tall + ((2 * row + 1) * extent - low[edge, 1]) * wide
    return edge, row - top, numpy.clip(-(-over // (2 * extent * tall)), left, right) - left


def summed(marks, box):
    """Sums of marks along each row: of a row, a column and a number each."""
    left, top, right, bottom = box
    found = numpy.zeros((bottom - top, right - left + 1), dtype=numpy.int32)
    for row, column, number in marks:
        numpy.add.at(found, (row, column), number)
    return numpy.cumsum(found[:, :-1], axis=1)


def even_odd(rings, extent, box):
    """The pixels within an odd number of the rings."""
    starts = numpy.array([point for ring in rings for point in ring[-1:] + ring[:-1]], dtype=numpy.int64).reshape(-1, 2)
    ends = numpy.array([point for ring in rings for point in ring], dtype=numpy.int64).reshape(-1, 2)
    _, row, column = crossings(starts, ends, extent, box)
    return summed([(row, column, 1)], box) % 2 == 1


def area(ring):
    return sum(a[0] * b[1] - b[0] * a[1] for a, b in zip(ring[-1:] + ring[:-1], ring))


def polygons(rings):
    """MapLibre's rule: the first ring with area says which direction begins a polygon, and others are cut out of the open one."""
    found, is_first_up = [], None
    for ring in rings:
        up = area(ring)
        if up == 0:
            continue
        if is_first_up is None:
            is_first_up = up > 0
        if (up > 0) == is_first_up:
            found.append([ring])
        else:
            found[-1].append(ring)
    return [[first, *largest(holes)] for first, *holes in found]


def largest(holes):
    """All of them, or those of the largest areas."""
    return sorted(holes, key=lambda ring: -abs(area(ring)))[: MOST_RINGS - 1] if len(holes) >= MOST_RINGS else holes


def scaled(ring, extent):
    """A ring in the viewer's units, halves rounded up."""
    return [((2 * x * UNITS + extent) // (2 * extent), (2 * y * UNITS + extent) // (2 * extent)) for x, y in ring]


def triangles(polygon):
    points = numpy.array([point for ring in polygon for point in ring], dtype=numpy.int64)
    ends = numpy.cumsum([len(ring) for ring in polygon]).astype(numpy.uint32)
    corners = mapbox_earcut.triangulate_int32(points.astype(numpy.int32), ends)
    return points[corners.astype(numpy.int64)].reshape(-1, 3, 2)


def by_maplibre(rings, extent, box):
    """How many of the triangles lie over a pixel that earcut makes of the polygons: a triangle from its left side up to its right."""
    found = [triangles(polygon) for polygon in polygons([scaled(ring, extent) for ring in rings])]
    corners = numpy.concatenate([numpy.zeros((0, 3, 2), dtype=numpy.int64), *found])
    edge, row, column = crossings(corners.reshape(-1, 2), numpy.roll(corners, -1, axis=1).reshape(-1, 2), UNITS, box)
    # Each row of a triangle is crossed by two of its sides, so these are pairs: the lesser column first.
    order = numpy.lexsort((column, row, edge // 3))
    row, column = row[order], column[order]
    return summed([(row[::2], column[::2], 1), (row[1::2], column[1::2], -1)], box)
