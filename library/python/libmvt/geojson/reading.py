"""A layer of GeoJSON, or of anything that has `__geo_interface__`."""

import json
import math
from collections.abc import Iterable as AnyIterable
from collections.abc import Mapping
from dataclasses import dataclass
from itertools import chain, groupby
from numbers import Number
from typing import Any, Dict, Iterable, Iterator, List, NamedTuple, Optional, Tuple

from .._errors import OutOfRange
from .._tiles import Feature, Kind, Layer, Point
from .._values import Value
from ..mercator import EDGE, column_of, place_of, row_of

# A position is at most so far from the corner of its tile, and from the one before it. Two that are nearer to the corner than
# half of it are near enough to one another.
_FARTHEST = (1 << 31) - 1
# What is no list of GeoJSON, though Python has items of it.
_NO_LISTS = (str, bytes, bytearray, Mapping)


class Vanished(NamedTuple):
    """What a layer doesn't have of the GeoJSON that it is made of: points that fall together with another one, lines of one
    point and rings without area (with a polygon's exterior its holes), features of which nothing is left, and ids that are
    no whole number from 0 up to 2^64."""

    points: int
    parts: int
    features: int
    ids: int


@dataclass(eq=False)
class MadeLayer(Layer):
    """A layer, and what has vanished. It equals any layer that has the same name, extent and features."""

    vanished: Vanished = Vanished(0, 0, 0, 0)

    __hash__ = None  # type: ignore[assignment]

    def __eq__(self, other: object) -> bool:
        if not isinstance(other, Layer):
            return NotImplemented
        return (self.name, self.extent, self.features) == (other.name, other.extent, other.features)


def from_geojson(features: Any, z: int, x: int, y: int, extent: int = 4096, *, name: str = "features") -> MadeLayer:
    """The layer of a tile of features in degrees of WGS 84: an object of GeoJSON, what has `__geo_interface__`, or several
    of these. `vanished` of the answer tells what was too small for the tile.

    Positions are rounded to the tile's units, and latitudes beyond the map lie at its edge; nothing is cut at the edge of
    the tile. Each geometry of a collection is a feature. A property that is None is left out; a list or an object becomes
    its JSON. Raises ValueError for what is no GeoJSON, and OutOfRange for a position too far from the tile, or from the one
    before it.
    """
    z, x, y = place_of(z, x, y)
    if not 1 <= extent < 1 << 32:
        raise ValueError("a tile's extent is a number from 1 up to 2^32")
    making = _Making(z, x, y, extent)
    made = [making.feature(*found) for found in _found(features)]
    return MadeLayer(name, extent, [feature for feature in made if feature is not None], making.vanished())


def _found(given: Any) -> Iterator[Tuple[Any, Mapping[str, Any], Any]]:
    """The geometries, each with the id and the properties of its feature; None where a feature has no geometry."""
    is_one = isinstance(given, Mapping) or hasattr(given, "__geo_interface__")
    if not is_one and (isinstance(given, _NO_LISTS) or not isinstance(given, AnyIterable)):
        raise ValueError(f"no GeoJSON: {type(given).__name__} is no object, and no list of objects")
    for each in (given,) if is_one else given:
        yield from _found_in(each)


def _found_in(given: Any) -> Iterator[Tuple[Any, Mapping[str, Any], Any]]:
    waiting: List[Tuple[Any, Mapping[str, Any], Any]] = [(None, {}, given)]
    while waiting:
        id, properties, found = waiting.pop()
        item = getattr(found, "__geo_interface__", found)
        kind = item.get("type") if isinstance(item, Mapping) else None
        if kind == "FeatureCollection":
            waiting += [(None, {}, each) for each in reversed(_listed(item, "features"))]
        elif kind == "Feature":
            waiting.append((item.get("id"), _properties(item), item.get("geometry")))
        elif kind == "GeometryCollection":
            waiting += [(id, properties, each) for each in reversed(_listed(item, "geometries"))]
        else:
            yield id, properties, item


def _listed(item: Mapping[str, Any], member: str) -> List[Any]:
    found = item.get(member)
    if not isinstance(found, (list, tuple)):
        raise ValueError(f"no GeoJSON: a {item['type']} without {member}")
    return list(found)


def _properties(feature: Mapping[str, Any]) -> Mapping[str, Any]:
    found = feature.get("properties") or {}
    if not isinstance(found, Mapping):
        raise ValueError("no GeoJSON: properties that are no object")
    return found


class _Making:
    """Makes features of a tile, and counts what vanishes."""

    def __init__(self, z: int, x: int, y: int, extent: int) -> None:
        self._left, self._top, self._side = x * extent, y * extent, extent << z
        self._points = self._parts = self._features = self._ids = 0
        self._is_far = False

    def vanished(self) -> Vanished:
        return Vanished(self._points, self._parts, self._features, self._ids)

    def feature(self, id: Any, properties: Mapping[str, Any], geometry: Any) -> Optional[Feature]:
        kind, drawn = ("unknown", []) if geometry is None else self._geometry(geometry)
        if not drawn:
            self._features += 1
            return None
        return Feature(self._id(id), _attributes(properties), kind, drawn)

    def _id(self, id: Any) -> Optional[int]:
        """An id that is a whole number, or says one in digits."""
        number = _whole(id)
        if number is not None and 0 <= number < 1 << 64:
            return number
        self._ids += id is not None
        return None

    def _geometry(self, geometry: Any) -> Tuple[Kind, List[Any]]:
        kind = geometry.get("type") if isinstance(geometry, Mapping) else None
        if not isinstance(kind, str) or kind not in _KINDS:
            raise ValueError(f"no GeoJSON: {kind!r:.100} is no type of a geometry")
        coordinates = geometry.get("coordinates")
        try:
            drawn = self._drawn(_KINDS[kind], _items(coordinates) if kind.startswith("Multi") else [coordinates])
        except OutOfRange:
            raise
        except OverflowError as why:
            raise OutOfRange(f"a position of a {kind} is too far from the tile") from why
        except (TypeError, LookupError) as why:
            raise ValueError(f"no GeoJSON: coordinates of a {kind} that are none") from why
        return _KINDS[kind], drawn

    def _drawn(self, kind: Kind, parts: Iterable[Any]) -> List[Any]:
        """What is drawn of points, lines or polygons."""
        self._is_far = False
        if kind == "points":
            drawn: List[Any] = self._distinct(map(self._point, filter(len, map(_items, parts))))
        else:
            drawn = list(filter(None, map(self._line if kind == "lines" else self._polygon, parts)))
        if self._is_far:
            lines = [drawn] if kind == "points" else drawn if kind == "lines" else chain.from_iterable(drawn)
            _check_steps(chain.from_iterable(lines))
        return drawn

    def _point(self, position: Any) -> Point:
        given = _items(position)
        longitude, latitude = _degrees(given[0]), _degrees(given[1])
        if not (math.isfinite(longitude) and math.isfinite(latitude)):
            raise ValueError("no GeoJSON: a position that is no number")
        x = math.floor(column_of(longitude) * self._side + 0.5) - self._left
        y = math.floor(row_of(min(max(latitude, -EDGE), EDGE)) * self._side + 0.5) - self._top
        if max(abs(x), abs(y)) > _FARTHEST // 2:
            self._is_far = True
            if max(abs(x), abs(y)) > _FARTHEST:
                raise OutOfRange(f"longitude {longitude:g}, latitude {latitude:g} is too far from the tile")
        return x, y

    def _distinct(self, points: Iterable[Point]) -> List[Point]:
        made = list(points)
        kept = list(dict.fromkeys(made))
        self._points += len(made) - len(kept)
        return kept

    def _moving(self, positions: Iterable[Any]) -> List[Point]:
        """Points of which each is another one than that before."""
        made = list(map(self._point, _items(positions)))
        kept = [point for point, _ in groupby(made)]
        self._points += len(made) - len(kept)
        return kept

    def _line(self, positions: Any) -> Optional[List[Point]]:
        points = self._moving(positions)
        if len(points) > 1:
            return points
        self._parts += bool(points)
        return None

    def _polygon(self, rings: Any) -> Optional[List[List[Point]]]:
        """Rings: the exterior one has a positive area, and the others have negative ones."""
        found = [self._ring(positions, number == 0) for number, positions in enumerate(_items(rings))]
        kept = [ring for ring in found if ring] if found and found[0] else []
        self._parts += len(found) - len(kept)
        return kept or None

    def _ring(self, positions: Any, is_exterior: bool) -> Optional[List[Point]]:
        points = self._moving(positions)
        if len(points) > 1 and points[0] == points[-1]:
            points.pop()
        area = _area(points)
        if not area:
            return None
        return points if (area > 0) == is_exterior else [points[0], *points[:0:-1]]


def _items(given: Any) -> Any:
    """What coordinates are a list of. Raises TypeError for a text or an object."""
    if not isinstance(given, (list, tuple)) and isinstance(given, _NO_LISTS):
        raise TypeError
    return given


def _degrees(given: Any) -> float:
    """A number of a position. Raises TypeError for what is none, such as a text of digits, and OverflowError."""
    if isinstance(given, float):
        return given
    if isinstance(given, bool) or not isinstance(given, Number):
        raise TypeError
    return float(given)  # type: ignore[arg-type]


def _check_steps(points: Iterable[Point]) -> None:
    """Raises OutOfRange where a point is too far from the one before it, and the first one from the tile's corner."""
    left = top = 0
    for x, y in points:
        if max(abs(x - left), abs(y - top)) > _FARTHEST:
            raise OutOfRange("two positions that follow each other are too far from one another")
        left, top = x, y


def _area(points: List[Point]) -> int:
    """Twice the area that a ring goes round, positive where it goes clockwise and y goes down."""
    behind = [*points[1:], *points[:1]]
    return sum(x * below - right * y for (x, y), (right, below) in zip(points, behind))


def _whole(id: Any) -> Optional[int]:
    """The whole number that an id is, or says in digits."""
    if isinstance(id, float) and id.is_integer():
        return int(id)
    if isinstance(id, int) and not isinstance(id, bool):
        return int(id)
    digits = str(id) if isinstance(id, (str, Number)) else ""
    return int(digits) if digits.isdecimal() and digits.isascii() and len(digits) <= 20 else None


def _attributes(properties: Mapping[str, Any]) -> Dict[str, Value]:
    return {_text(str(key)): _value(value) for key, value in properties.items() if value is not None}


def _value(given: Any) -> Value:
    """A value that a tile can have. A number of numpy is Python's; a whole number that is too large is a double."""
    value = given.item() if hasattr(given, "item") else given
    if isinstance(value, (bool, float)):
        return value
    if isinstance(value, int):
        return value if -(1 << 63) <= value < 1 << 64 else _double(value)
    return _text(value if isinstance(value, str) else _json(value))


def _json(value: Any) -> str:
    try:
        return json.dumps(value, ensure_ascii=False, default=str)
    except (TypeError, RecursionError) as why:
        raise ValueError("no GeoJSON: a property that JSON doesn't have") from why


def _double(number: int) -> float:
    try:
        return float(number)
    except OverflowError:
        return math.inf if number > 0 else -math.inf


def _text(text: str) -> str:
    """A text as UTF-8 has it: half a pair of surrogates, which JSON may spell, is no letter."""
    return text.encode("utf-16", "surrogatepass").decode("utf-16", "replace")


_KINDS: Dict[str, Kind] = {
    "Point": "points",
    "MultiPoint": "points",
    "LineString": "lines",
    "MultiLineString": "lines",
    "Polygon": "polygons",
    "MultiPolygon": "polygons",
}
