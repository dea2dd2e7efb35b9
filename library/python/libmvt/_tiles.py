"""A tile as plain objects."""

from dataclasses import dataclass
from typing import Any, ClassVar, Dict, Iterator, List, Literal, Optional, Tuple, Union

from ._errors import NoLayer
from ._objects import feature_of, geometry_of
from ._reprs import Brief
from ._values import Value

Point = Tuple[int, int]
Kind = Literal["unknown", "points", "lines", "polygons"]
KINDS: Tuple[Kind, ...] = ("unknown", "points", "lines", "polygons")


@dataclass(eq=False, repr=False)
class Feature(Brief):
    """A feature. `kind` says what `geometry` is: integers ("unknown"), points, lines of points, or polygons, each a
    list of rings with the exterior ring first. The last point of a ring is joined to its first."""

    id: Optional[int]
    attributes: Dict[str, Value]
    kind: Kind
    geometry: List[Any]

    __hash__ = None  # type: ignore[assignment]

    def __eq__(self, other: object) -> bool:
        """An attribute that is no number (NaN) equals another such."""
        if not isinstance(other, Feature):
            return NotImplemented
        if (self.id, self.kind, self.geometry) != (other.id, other.kind, other.geometry):
            return False
        mine, others = self.attributes, other.attributes
        return mine.keys() == others.keys() and all(_is_same(value, others[key]) for key, value in mine.items())

    @property
    def __geo_interface__(self) -> Dict[str, Any]:
        """Its geometry as an object of GeoJSON, in the units of the tile, as shapely and others take it: an empty
        collection where nothing is drawn."""
        return geometry_of(self.kind, self.geometry) or {"type": "GeometryCollection", "geometries": []}


def _is_same(one: Value, other: Value) -> bool:
    return one == other or (one != one and other != other)


@dataclass(repr=False)
class Layer(Brief):
    """A layer of version 2. Positions go from 0 to `extent` within the tile: x to the right, y down. `len(layer)` is the
    number of its features, and `for feature in layer` goes through them."""

    version: ClassVar[Literal[2]] = 2

    name: str
    extent: int
    features: List[Feature]

    @property
    def __geo_interface__(self) -> Dict[str, Any]:
        """Its features as a collection of GeoJSON, in the units of the tile."""
        return {"type": "FeatureCollection", "features": list(map(feature_of, self.features))}

    def __len__(self) -> int:
        return len(self.features)

    def __bool__(self) -> bool:
        """A layer without features is a layer."""
        return True

    def __iter__(self) -> Iterator[Feature]:
        return iter(self.features)


@dataclass(repr=False)
class Foreign(Brief):
    """A layer of another version than 2, carried as its bytes. Its name isn't known."""

    version: int
    bytes: bytes


@dataclass(repr=False)
class Tile(Brief):
    """A tile: its layers, in order. `tile["water"]` is the layer of that name, and `"water" in tile` whether there is
    one. `len(tile)` is the number of its layers, and `for layer in tile` goes through them."""

    layers: List[Union[Layer, Foreign]]

    def layer(self, name: str) -> Optional[Layer]:
        """The layer of version 2 that has this name, or None."""
        for layer in self.layers:
            if isinstance(layer, Layer) and layer.name == name:
                return layer
        return None

    def __getitem__(self, name: str) -> Layer:
        """The layer of version 2 that has this name. Raises NoLayer."""
        layer = self.layer(name)
        if layer is None:
            raise NoLayer(name)
        return layer

    def __contains__(self, name: object) -> bool:
        return isinstance(name, str) and self.layer(name) is not None

    def __len__(self) -> int:
        return len(self.layers)

    def __bool__(self) -> bool:
        """A tile without layers is a tile."""
        return True

    def __iter__(self) -> Iterator[Union[Layer, Foreign]]:
        return iter(self.layers)
