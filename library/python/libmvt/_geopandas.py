"""Layers as the frames of geopandas, where it is there."""

import struct
from typing import Any, Callable, Iterator, List, Tuple, Union

import numpy
import shapely  # type: ignore[import]
from geopandas import GeoDataFrame, GeoSeries  # type: ignore[import]

from ._frames import Array, Frame, Shapes, frame_of_layer
from ._tiles import Layer
from .mercator import latitude_of, longitude_of

CRS = "EPSG:4326"
# The kinds of features. Well-known binary has these numbers for a single geometry, and three more for several.
_POINTS, _LINES, _POLYGONS = 1, 2, 3


def to_geopandas(layer: Union[Layer, Frame], z: int, x: int, y: int, decimals: int) -> Any:
    """`libmvt.to_geopandas`, which says what it does."""
    if not (0 <= z <= 30 and isinstance(x, int) and isinstance(y, int)):
        raise ValueError("a tile's place is a zoom up to 30, a column and a row")
    frame = layer if isinstance(layer, Frame) else frame_of_layer(layer)
    column = "geometry"
    while column in frame.columns:
        column = "_" + column
    made = numpy.full(len(frame), None, object)
    is_new = hasattr(shapely, "linearrings")
    if frame.extent:
        makers = (_objects, _collections) if is_new else (_binaries, _joined)
        _fill(made, frame.shapes, _degrees(frame, (z, x, y), decimals), makers)
    geometries = (GeoSeries if is_new else GeoSeries.from_wkb)(made, crs=CRS).array
    index = frame.ids if len(frame) and frame.has_id.all() else None
    return GeoDataFrame({**frame.columns, column: geometries}, index=index, geometry=column)


def _degrees(frame: Frame, place: Tuple[int, int, int], decimals: int) -> Array:
    """The points in degrees. Equal points of neighbours have equal degrees."""
    z, left, top = place
    side, points = frame.extent << z, frame.shapes.points
    made = numpy.empty(points.shape, "<f8")
    made[:, 0] = _each(points[:, 0], lambda x: round(longitude_of((left * frame.extent + x) / side), decimals) + 0.0)
    made[:, 1] = _each(points[:, 1], lambda y: round(latitude_of((top * frame.extent + y) / side), decimals) + 0.0)
    return made


def _each(numbers: Array, function: Callable[[int], float]) -> Array:
    """A function of each number, which is called once for equal ones. Numbers near one another are looked up."""
    low, high = (int(numbers.min()), int(numbers.max())) if len(numbers) else (0, 0)
    if high - low < len(numbers):
        table = numpy.array([function(number) for number in range(low, high + 1)], float)
        return table[numbers.astype(numpy.int64) - low]
    different, again = numpy.unique(numbers, return_inverse=True)
    return numpy.array([function(number) for number in different.tolist()], float)[again]


def _laid(shapes: Shapes, is_ring: Array) -> Tuple[Array, Array]:
    """The points as a map wants them, by index, and how many each part has. Rings are closed, and turned round, since y
    goes up on a map."""
    begins, counts = shapes.starts[:-1], numpy.diff(shapes.starts)
    rings = numpy.flatnonzero(is_ring & (counts > 0))
    first, last = shapes.points[begins[rings]], shapes.points[begins[rings] + counts[rings] - 1]
    is_open = numpy.zeros(len(counts), bool)
    is_open[rings] = ~((first == last).all(axis=1) & (counts[rings] > 3))
    lengths = counts + is_open
    owner = numpy.repeat(numpy.arange(len(lengths)), lengths)
    within = numpy.arange(len(owner)) - _offsets(lengths)[owner]
    turned = (lengths[owner] - 1 - within) % counts[owner]
    return begins[owner] + numpy.where(is_ring[owner], turned, within), lengths


def _offsets(lengths: Array) -> Array:
    """Where each of a series begins, and where the last ends."""
    return numpy.concatenate([[0], numpy.cumsum(lengths)]).astype(numpy.int64)


def _fill(
    made: Array, shapes: Shapes, located: Array, makers: Tuple[Callable[..., Array], Callable[..., Array]]
) -> None:
    """Puts in each geometry; of an unknown kind there is none. One maker makes single points, lines or polygons of places, and
    the other one geometry of the single ones of a feature that has several."""
    single, several = makers
    owners = numpy.repeat(numpy.arange(len(made)), numpy.diff(shapes.parts))
    kinds = shapes.kinds[owners]
    at, lengths = _laid(shapes, kinds == _POLYGONS)
    places, leads = located[at], shapes.exterior | (numpy.diff(owners, prepend=-1) != 0)
    for kind in (_POINTS, _LINES, _POLYGONS):
        chosen = kinds == kind
        of, offsets = _singles(kind, owners[chosen], lengths[chosen], leads[chosen])
        if not len(of):
            continue
        pieces = single(kind, places[numpy.repeat(chosen, lengths)], offsets)
        alone = numpy.bincount(of)[of] == 1
        made[of[alone]] = pieces[alone]
        features, groups = numpy.unique(of[~alone], return_inverse=True)
        made[features] = several(kind, pieces[~alone], groups)


def _singles(kind: int, owners: Array, lengths: Array, leads: Array) -> Tuple[Array, List[Array]]:
    """The features that single points, lines or polygons belong to; where the points of each line or ring begin, and where the
    rings of each polygon do. Given are the feature and the length of each part, and whether it begins a polygon."""
    if kind == _POINTS:
        return numpy.repeat(owners, lengths), []
    if kind == _LINES:
        return owners, [_offsets(lengths)]
    begins = numpy.flatnonzero(leads)
    return owners[begins], [_offsets(lengths), numpy.append(begins, len(leads))]


def _objects(kind: int, places: Array, offsets: List[Array]) -> Array:
    """Points, lines or polygons of shapely 2. Its `from_ragged_array` isn't used: that of shapely 2.1.0 writes beyond its
    memory where a polygon has three holes."""
    if kind == _POINTS:
        return shapely.points(places)
    of = _owners(offsets[0])
    if kind == _LINES:
        return shapely.linestrings(places, indices=of)
    return shapely.polygons(shapely.linearrings(places, indices=of), indices=_owners(offsets[1]))


def _owners(offsets: Array) -> Array:
    """Of each of a series in which parts begin at the offsets, the number of its part."""
    return numpy.repeat(numpy.arange(len(offsets) - 1), numpy.diff(offsets))


def _collections(kind: int, pieces: Array, groups: Array) -> Array:
    makers = {_POINTS: shapely.multipoints, _LINES: shapely.multilinestrings, _POLYGONS: shapely.multipolygons}
    return makers[kind](pieces, indices=groups)


def _binaries(kind: int, places: Array, offsets: List[Array]) -> Array:
    """The same as well-known binary, for shapely 1."""
    head, pairs = struct.pack("<BI", 1, kind), places.tobytes()
    ends = (16 * offsets[0]).tolist() if offsets else range(0, len(pairs) + 1, 16)
    made = [pairs[begin:end] for begin, end in zip(ends, ends[1:])]
    if kind != _POINTS:
        made = [struct.pack("<I", len(each) // 16) + each for each in made]
    if kind == _POLYGONS:
        rings, begins = made, offsets[1].tolist()
        made = [struct.pack("<I", end - begin) + b"".join(rings[begin:end]) for begin, end in zip(begins, begins[1:])]
    return _array(head + each for each in made)


def _joined(kind: int, pieces: Array, groups: Array) -> Array:
    several = numpy.split(pieces, numpy.flatnonzero(numpy.diff(groups)) + 1) if len(pieces) else []
    return _array(struct.pack("<BII", 1, kind + 3, len(each)) + b"".join(each) for each in several)


def _array(binaries: Iterator[bytes]) -> Array:
    listed = list(binaries)
    made = numpy.empty(len(listed), object)
    made[:] = listed
    return made
