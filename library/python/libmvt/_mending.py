"""Tiles that are mended."""

from dataclasses import dataclass
from struct import Struct
from typing import List, NamedTuple, Optional, Sequence, Union

from ._errors import Refused
from ._mvt import mend_rows
from ._numbers import CHANGES

_Buffer = Union[bytes, bytearray, memoryview]

# A change, as mvt.h has it.
CHANGE_ROW = Struct("<I4xQQQQQ")


@dataclass(frozen=True)
class Change:
    """What `mend` changed, with its place in the tile as it stood, counted from 0.

    `kind` is "TurnedRing", a ring that is told in the other direction; "RepeatedPoint", `count` points that are left out,
    each of which equals the one before it, or a ring's first at its end; "PartLeftOut", a line or ring that has too few points
    then, and had `count`; "FeatureLeftOut", where none is left of `count` points; or "MovedRing", a ring that stands behind
    the exterior ring that holds it, at index `to` among those that stay. `part` is a line, or a ring through all polygons of
    the feature. Its text is that of `mvt mend`.
    """

    kind: str
    layer: int
    feature: int
    part: Optional[int] = None
    count: Optional[int] = None
    to: Optional[int] = None

    def __str__(self) -> str:
        part = "" if self.part is None else f" {self.part}"
        count = "" if self.count is None else f" count {self.count}"
        to = "" if self.to is None else f" to {self.to}"
        return f"layer {self.layer} feature {self.feature}: {self.kind}{part}{count}{to}"


class Mended(NamedTuple):
    """A tile that was mended: its canonical bytes, and what was changed in the order of the layers, features and parts."""

    bytes: bytes
    changes: List[Change]


def mend(tile: _Buffer) -> Mended:
    """A tile with the two rules mended that producers break most: a point that equals the one before it (ZeroSegment), and
    a first ring that goes the wrong way round (FirstRing).

    Filled by the even-odd rule it looks the same before and after; ids, attributes and all else stay. A tile that keeps every
    rule comes as `rewrite` makes it, without changes. Raises Refused, with the fault of the tile as it stands, where it breaks
    another rule too, or its rings cross by more than a unit or would take seconds (2^30 steps); and TooLarge.
    """
    try:
        made, rows = mend_rows(tile)
    except Refused as fault:
        fault._is_mended = False
        raise
    return Mended(made, list(map(change_of, CHANGE_ROW.iter_unpack(rows))))


def change_of(row: Sequence[int]) -> Change:
    """The change that a row of the library tells."""
    kind, layer, feature, part, count, to = row
    name = CHANGES[kind]
    return Change(
        name,
        layer,
        feature,
        None if name == "FeatureLeftOut" else part,
        None if name in ("TurnedRing", "MovedRing") else count,
        to if name == "MovedRing" else None,
    )
