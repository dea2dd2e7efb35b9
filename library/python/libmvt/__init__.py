"""Reads, judges and writes Mapbox Vector Tiles, by the proved library `libmvt`.

    >>> import libmvt
    >>> tile = libmvt.read(open("town.mvt", "rb").read())
    >>> tile["water"].features[0].attributes
    {'name': 'Mill Pond', 'salt': False}
    >>> [(layer.name, len(layer.features)) for layer in tile if layer.version == 2]
    [('places', 3), ('roads', 2), ('water', 2)]

A layer of another version than 2 is carried as bytes, and has no name. A tile that breaks a rule raises `Refused`, which
says the layer, the feature, the place and the cause of the first broken rule. Each call takes the bytes of one
uncompressed tile. Threads may call at the same time.
"""

from importlib.util import find_spec as _find_spec
from typing import TYPE_CHECKING, Any, Union

if _find_spec("._mvt", __name__) is None:
    raise ModuleNotFoundError(f"{__path__[0]} has no _mvt.abi3.so: `library/build` makes it", name="libmvt._mvt")

from ._around import Around, Bounds, Field, Integer, Path, Role, Step, around
from ._errors import MvtError, NoLayer, NoTile, OutOfRange, Refused, TooLarge
from ._mending import Change, Mended, mend
from ._mvt import (
    Builder,
    Decoder,
    FeatureRow,
    LayerRow,
    PartRow,
    PointRow,
    Rows,
    Span,
    ValueRow,
    cause_text,
    extract,
    finding_text,
    judge,
    note_text,
    read,
    read_layer,
    rewrite,
    rows,
    to_json,
    to_svg,
    version,
    write,
)
from ._numbers import CAUSES, CHANGES, FINDINGS, LIMIT, LOOKALIKES, NOTES
from ._remarks import Finding, Note, Report, Survey, lint, looks_like, report, survey
from ._tiles import Feature, Foreign, Kind, Layer, Point, Tile
from ._values import Float, Int, Sint, Uint, Value
from .geojson import MadeLayer, Vanished, from_geojson, to_geojson

if TYPE_CHECKING:
    import numpy

    from ._frames import Frame

__version__ = version()

# What holds the bytes of a tile.
Buffer = Union[bytes, bytearray, memoryview]


def dtype(name: str) -> "numpy.dtype[Any]":
    """The type of numpy for the rows of a list, such as "points"."""
    from ._arrays import dtype

    return dtype(name)


def to_geopandas(layer: "Union[Layer, Frame]", z: int, x: int, y: int, decimals: int = 7) -> Any:
    """A layer as a GeoDataFrame of geopandas: the layer of the tile at a place, in degrees of WGS 84.

    A frame (`Rows.frame`) is much faster than a layer of plain objects, and tells the columns' types. The index has the
    ids, if each feature has one. A geometry of an unknown kind, or in a layer of extent 0, is None. The column of
    geometries is named "geometry", or "_geometry" if the layer has such a key. Raises ImportError without geopandas.
    """
    from ._geopandas import to_geopandas

    return to_geopandas(layer, z, x, y, decimals)


def __getattr__(name: str) -> Any:
    """`Frame`, the class of what `Rows.frame` makes, which wants numpy."""
    if name != "Frame":
        raise AttributeError(f"module {__name__!r} has no attribute {name!r}")
    from ._frames import Frame

    return Frame


__all__ = [
    "Around",
    "Bounds",
    "Buffer",
    "Builder",
    "CAUSES",
    "CHANGES",
    "Change",
    "Decoder",
    "FINDINGS",
    "Feature",
    "FeatureRow",
    "Field",
    "Finding",
    "Float",
    "Foreign",
    "Frame",
    "Int",
    "Integer",
    "Kind",
    "LIMIT",
    "LOOKALIKES",
    "Layer",
    "LayerRow",
    "MadeLayer",
    "Mended",
    "MvtError",
    "NOTES",
    "NoLayer",
    "NoTile",
    "Note",
    "OutOfRange",
    "PartRow",
    "Path",
    "Point",
    "PointRow",
    "Refused",
    "Report",
    "Role",
    "Rows",
    "Sint",
    "Span",
    "Step",
    "Survey",
    "Tile",
    "TooLarge",
    "Uint",
    "Value",
    "ValueRow",
    "Vanished",
    "around",
    "cause_text",
    "dtype",
    "extract",
    "finding_text",
    "from_geojson",
    "judge",
    "lint",
    "looks_like",
    "mend",
    "note_text",
    "read",
    "read_layer",
    "report",
    "rewrite",
    "rows",
    "survey",
    "to_geojson",
    "to_geopandas",
    "to_json",
    "to_svg",
    "write",
]
