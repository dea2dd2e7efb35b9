"""GeoJSON of a tile, feature by feature."""

from functools import lru_cache
from typing import Any, Callable, Dict, Iterable, Iterator, List, NamedTuple, Optional, Tuple, Union

from .._errors import NoLayer
from .._mvt import Rows, rows
from .._objects import Position, feature_of
from .._tiles import Feature, Layer, Point, Tile
from .._walk import features_of
from ..mercator import latitude_of, longitude_of, place_of

# Positions to a centimetre.
DECIMALS = 7
# So many columns and so many rows are held as degrees, for points to come.
_HELD = 1 << 14

Place = Tuple[int, int, int]


class Part(NamedTuple):
    """A layer of version 2, whose features are made one after another."""

    name: str
    extent: int
    features: Iterable[Feature]


def parts_of(tile: Union[Tile, Rows], names: Optional[Iterable[str]] = None) -> List[Part]:
    """The layers of version 2, or those with some names. Raises NoLayer for a name that none has."""
    wanted = None if names is None else list(names)
    parts = list(_parts_of_rows(tile) if isinstance(tile, Rows) else _parts_of_tile(tile))
    for name in wanted or ():
        if all(part.name != name for part in parts):
            raise NoLayer(name)
    return [part for part in parts if wanted is None or part.name in wanted]


def _parts_of_rows(table: Rows) -> Iterator[Part]:
    for layer in table.layers:
        if layer.version == 2:
            yield Part(table.text(layer.name), layer.extent, features_of(table, layer))


def _parts_of_tile(tile: Tile) -> Iterator[Part]:
    return (Part(layer.name, layer.extent, layer.features) for layer in tile if isinstance(layer, Layer))


def position_at(place: Place, extent: int, decimals: int) -> Position:
    """What makes degrees of a point of the tile at a place. Equal points of neighbours have equal degrees."""
    z, left, top = place
    side = extent << z
    longitude = _held(lambda x: round(longitude_of((left * extent + x) / side), decimals) + 0.0)
    latitude = _held(lambda y: round(latitude_of((top * extent + y) / side), decimals) + 0.0)

    def position(point: Point) -> List[float]:
        return [longitude(point[0]), latitude(point[1])]

    return position


def _held(degrees: Callable[[int], float]) -> Callable[[int], float]:
    return lru_cache(_HELD)(degrees)


def objects_of(part: Part, place: Optional[Place], decimals: int = DECIMALS) -> Iterator[Dict[str, Any]]:
    """The features of a layer, in degrees where a place is told, each with the layer's name. A layer of extent 0 lies
    nowhere on earth, so its features have no geometry there."""
    position = position_at(place, part.extent, decimals) if place and part.extent else None
    for feature in part.features:
        made = feature_of(feature, position)
        if place and position is None:
            made["geometry"] = None
        made["layer"] = part.name
        yield made


def to_geojson(
    tile: Union[bytes, bytearray, memoryview, Tile, Rows],
    z: int,
    x: int,
    y: int,
    layers: Optional[Iterable[str]] = None,
    decimals: int = DECIMALS,
) -> Dict[str, Any]:
    """A FeatureCollection of GeoJSON (RFC 7946): the tile at a place, in degrees of WGS 84. Each feature says its `layer`.

    Layers are those of version 2, or of them those with the names. What JSON has no number for (NaN, infinities) is None,
    an id from 2^53 on is a text, and a geometry of an unknown kind, without points or in a layer of extent 0 is None.
    Raises Refused, NoLayer for a name that no layer has, and ValueError for what is no place.
    """
    place = place_of(z, x, y)
    found = parts_of(tile if isinstance(tile, (Tile, Rows)) else rows(tile), layers)
    features = [made for part in found for made in objects_of(part, place, decimals)]
    return {"type": "FeatureCollection", "features": features}
