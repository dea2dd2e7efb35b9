"""What the calls raise."""

from typing import Any, Optional, Tuple

# Of a tile up to so many bytes the text of a fault says whether it can be mended: of one made for it that takes a second, and of
# larger ones ten.
_ASKED = 100_000


class MvtError(Exception):
    """Why a call made nothing, except out of memory, which is MemoryError."""


class Refused(MvtError):
    """The first rule that a tile breaks. Its text is `line`, which the program `mvt` prints, `explanation`: `sentence`, the
    fault in words, behind the names of its layer and its feature; and `hint`: "mvt mend mends this" where `mend` does.

    `layer` and `feature` are indices, or None for a fault outside a layer or a feature. `at` is an offset in the
    tile, or an index in the tags or integers of the feature. `cause` is the cause's number and `name` its name.
    `layer_name` and `feature_id` are None if the bytes don't have them. The fault is about the bytes from `start` up to
    `end`; if both are equal, something is missing before that byte. Both are None if the tile isn't at hand, as in a
    decoder.
    """

    _tile: Optional[bytes] = None
    _is_mended: Optional[bool] = None

    def __init__(
        self,
        layer: Optional[int],
        feature: Optional[int],
        at: int,
        cause: int,
        name: str,
        sentence: str = "",
        layer_name: Optional[str] = None,
        feature_id: Optional[int] = None,
        start: Optional[int] = None,
        end: Optional[int] = None,
    ) -> None:
        super().__init__(layer, feature, at, cause, name, sentence, layer_name, feature_id, start, end)
        self.layer, self.feature, self.at, self.cause, self.name = layer, feature, at, cause, name
        self.layer_name, self.feature_id = layer_name, feature_id
        self.start, self.end, self.sentence = start, end, sentence
        self.explanation = ": ".join(filter(None, [self._where(), sentence]))

    def _where(self) -> str:
        """The layer and the feature, where they have a name or an id."""
        told = []
        if self.layer_name is not None:
            told.append("layer %r" % self.layer_name)
        if self.feature_id is not None:
            told.append("feature with id %d" % self.feature_id)
        return ", ".join(told)

    @property
    def line(self) -> str:
        """The line that the program `mvt` prints."""
        return f"layer {_index(self.layer)} feature {_index(self.feature)} at {self.at}: {self.cause} {self.name}"

    @property
    def can_be_mended(self) -> bool:
        """Whether `mend` makes a tile of these bytes that keeps every rule. When this, or the text, is first read, the bytes are
        mended, which takes as long as `mend`. False of other causes than ZeroSegment and FirstRing, and where the tile isn't at
        hand, as in a decoder, or for a tile above 100 kB where the exception was pickled before."""
        if self._is_mended is None:
            tile = self.__dict__.pop("_tile", None)
            self._is_mended = tile is not None and _is_mended(tile)
        return self._is_mended

    @property
    def hint(self) -> str:
        """What helps, or nothing. Of a tile above 100 kB it is nothing, until `can_be_mended` was read."""
        is_asked = self._is_mended is not None or self._tile is not None and len(self._tile) <= _ASKED
        return "mvt mend mends this" if is_asked and self.can_be_mended else ""

    def __reduce__(self) -> Tuple[Any, ...]:
        """Without the tile, but with the same text."""
        _ = self.hint  # which may be asked for now alone
        return type(self), self.args, {name: value for name, value in self.__dict__.items() if name != "_tile"}

    def __str__(self) -> str:
        return ": ".join(filter(None, [self.line, self.explanation, self.hint]))


def _is_mended(tile: bytes) -> bool:
    from ._mvt import judge, mend_rows  # which imports this module

    try:
        judge(mend_rows(tile)[0])
    except (MvtError, MemoryError):
        return False
    return True


class TooLarge(MvtError):
    """The result would be larger than `LIMIT`."""


class NoLayer(MvtError, KeyError):
    """No layer of version 2 has this name: `name`."""

    def __init__(self, name: str) -> None:
        super().__init__(name)
        self.name = name

    def __str__(self) -> str:
        return "no layer of version 2 has the name %r" % self.name


class NoTile(MvtError):
    """What was to be written is no valid tile.

    For rows, `layer` and `feature` are the indices of the first fault (`feature` is None if the fault is in no feature),
    and `cause` is its number (`mvt_rows_cause` of mvt.h). Of a geometry that no commands draw `rule` is the number of the
    first rule that it breaks (`mvt_cause`; `libmvt.CAUSES` has the names), `part` the index of the line or ring, and `point`
    that of the point in it (None if the part as a whole breaks the rule).
    """

    layer: Optional[int] = None
    feature: Optional[int] = None
    cause: Optional[int] = None
    rule: Optional[int] = None
    part: Optional[int] = None
    point: Optional[int] = None


class OutOfRange(NoTile, OverflowError):
    """A number that doesn't fit into a tile."""


def _index(index: Optional[int]) -> str:
    return "-" if index is None else str(index)
