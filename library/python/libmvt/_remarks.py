"""What is noted and found of a tile that keeps every rule, and what bytes look like that are no tile."""

from dataclasses import dataclass
from itertools import chain
from struct import Struct
from typing import Any, Dict, List, Optional, Sequence, Tuple, Union

from ._mvt import finding_text, lint_rows, lookalike, note_text, report_lines, survey_rows
from ._numbers import FINDINGS, LOOKALIKES, NOTES
from ._reprs import brief, pieces

_Buffer = Union[bytes, bytearray, memoryview]

# Of each kind what it speaks of, in the order of the program's lines.
_OF_NOTE = {
    "NoLayers": (),
    "Foreign": ("layer", "version"),
    "NoFeatures": ("layer",),
    "RepeatedId": ("layer", "feature", "earlier"),
    "FlatRing": ("layer", "feature", "ring"),
    "ClosedTwice": ("layer", "feature", "ring"),
}
_NUMBERS = {name: number for numbers in (NOTES, FINDINGS) for number, name in numbers.items()}
# Their rows, as mvt.h has them.
NOTE_ROW, FINDING_ROW = Struct("<IIQQQQ"), Struct("<IIQQQii")


@dataclass(frozen=True)
class Note:
    """What is allowed, but worth a look, with the places of what it speaks of, all counted from 0.

    `kind` is "NoLayers", "Foreign", "NoFeatures", "RepeatedId", "FlatRing" or "ClosedTwice". `ring` counts through all
    polygons of a feature, `earlier` is the feature whose id is repeated, and `version` that of a layer of another version
    than 2.
    """

    kind: str
    layer: Optional[int] = None
    feature: Optional[int] = None
    ring: Optional[int] = None
    earlier: Optional[int] = None
    version: Optional[int] = None

    @property
    def explanation(self) -> str:
        """What the kind means, in plain words."""
        return note_text(_NUMBERS[self.kind])

    def __str__(self) -> str:
        return " ".join(chain([self.kind], (f"{name} {getattr(self, name)}" for name in _OF_NOTE[self.kind])))


@dataclass(frozen=True)
class Finding:
    """A finding of a tile, with the places of what it speaks of, all counted from 0.

    `kind` is "ZeroExtent", "NoGeometry", "UnknownGeometry", "FarPoint", "LargeId" or "LargeNumber". Of an extent `feature` is
    None; `attribute` is there of a large number alone, and `position`, an x and a y, of a far point.
    """

    kind: str
    layer: int
    feature: Optional[int] = None
    attribute: Optional[int] = None
    position: Optional[Tuple[int, int]] = None

    @property
    def explanation(self) -> str:
        """What the kind means, in plain words, and what happens in which viewer."""
        return finding_text(_NUMBERS[self.kind])

    def __str__(self) -> str:
        told = [self.kind, f"layer {self.layer}"]
        told += [] if self.feature is None else [f"feature {self.feature}"]
        told += [] if self.attribute is None else [f"attribute {self.attribute}"]
        told += [] if self.position is None else ["position %d %d" % self.position]
        return " ".join(told)


@dataclass(frozen=True)
class Survey:
    """How many layers a tile has, how many features those of version 2, whether its bytes are those that `rewrite` makes,
    and what is worth a look."""

    layers: int
    features: int
    canonical: bool
    notes: List[Note]

    def __repr__(self) -> str:
        counts = (
            f"{type(self).__name__}(layers={self.layers}, features={self.features}, canonical={self.canonical}, notes="
        )
        return brief(chain([counts], pieces(self.notes), [")"]))


class Report(str):
    """What `mvt check` prints of a tile, which is its text, and the values that it tells."""

    survey: Survey

    @property
    def layers(self) -> int:
        """How many layers there are."""
        return self.survey.layers

    @property
    def features(self) -> int:
        """How many features the layers of version 2 have."""
        return self.survey.features

    @property
    def canonical(self) -> bool:
        """Whether the bytes are those that `rewrite` makes."""
        return self.survey.canonical

    @property
    def notes(self) -> List[Note]:
        """What is worth a look, in the order of the text."""
        return self.survey.notes

    def __repr__(self) -> str:
        return repr(self.survey).replace("Survey", "Report", 1)


def survey(tile: _Buffer) -> Survey:
    """How many layers and features a tile has, whether its bytes are canonical, and what is worth a look.

    Raises Refused.
    """
    layers, features, canonical, notes = survey_rows(tile)
    return Survey(layers, features, canonical, list(map(note_of, NOTE_ROW.iter_unpack(notes))))


def report(tile: _Buffer) -> Report:
    """The text that `mvt check` prints of a tile, and what `survey` gives.

    Raises Refused.
    """
    told = Report(report_lines(tile))
    told.survey = survey(tile)
    return told


def lint(tile: _Buffer) -> List[Finding]:
    """What viewers stumble over in a tile, in the order of its layers, features and attributes; nothing where they don't.

    What is found breaks no rule: `judge` accepts such a tile. Raises Refused.
    """
    return list(map(finding_of, FINDING_ROW.iter_unpack(lint_rows(tile))))


def looks_like(tile: _Buffer) -> Optional[str]:
    """What refused bytes look like, such as "Gzip", "Jpeg" or "PlainText" (the names of `mvt_lookalike` in mvt.h); None if
    they may be meant as a tile.

    An accepted tile may begin as something else does. `Refused` has the kind in words.
    """
    return LOOKALIKES.get(lookalike(tile))


def note_of(row: Sequence[int]) -> Note:
    """The note that a row of the library tells."""
    kind, version, layer, feature, ring, earlier = row
    name = NOTES[kind]
    values: Dict[str, Any] = {"version": version, "layer": layer, "feature": feature, "ring": ring, "earlier": earlier}
    return Note(name, **{each: values[each] for each in _OF_NOTE[name]})


def finding_of(row: Sequence[int]) -> Finding:
    """The finding that a row of the library tells."""
    kind, has_feature, layer, feature, attribute, x, y = row
    name = FINDINGS[kind]
    return Finding(
        name,
        layer,
        feature if has_feature else None,
        attribute if name == "LargeNumber" else None,
        (x, y) if name == "FarPoint" else None,
    )
