"""The features of a layer as columns, for numpy and what is made of its arrays."""

from dataclasses import dataclass
from typing import Any, Dict, Iterable, Iterator, List, NamedTuple, Optional, Tuple, Union

import numpy

from ._errors import NoLayer
from ._mvt import LayerRow, Rows
from ._tiles import Layer, Tile

Array = Any

# So many cells the columns of a frame have at most, and so many rows more than a list has may its spans name.
_MOST = 1 << 26
_TEXT, _FLOAT, _DOUBLE, _INT, _UINT, _SINT, _BOOL = range(1, 8)


class Shapes(NamedTuple):
    """The geometries of features. The parts of feature n (lines, rings, or one part with its points) are numbered from
    `parts[n]` up to `parts[n + 1]`, and the points of part n from `starts[n]` up to `starts[n + 1]`."""

    kinds: Array  # of each feature: 0 unknown, 1 points, 2 lines, 3 polygons
    parts: Array
    exterior: Array  # of each part, whether it is a ring that begins a polygon
    starts: Array
    points: Array  # x and y, in the units of the tile


@dataclass(eq=False, repr=False)
class Frame:
    """The features of a layer: a column for each key, an id for each feature, and the geometries.

    A column of texts has objects, None where a feature lacks the key; one of truths has bool, and one of numbers int64,
    uint64 or float64, where each feature has one. Where features lack a number, or whole numbers stand beside others, the
    column is of float64 with NaN for none; if doubles can't have each of its numbers, or kinds are mixed, it has objects.
    """

    name: str
    extent: int
    columns: Dict[str, Array]
    ids: Array  # 0 where a feature has none
    has_id: Array
    shapes: Shapes

    def __len__(self) -> int:
        return len(self.ids)

    def __repr__(self) -> str:
        return f"<Frame {self.name!r}: {len(self)} features, columns {', '.join(self.columns) or 'none'}>"


def frame_of(table: Rows, layer: Union[str, LayerRow], keys: Optional[Iterable[str]] = None) -> Frame:
    """The frame of a layer of version 2, by its name or its row; of all its keys, or of some."""
    row = _row_of(table, layer)
    features = table.array("features")[_slice(row.features)]
    columns = _columns(table, row, features, None if keys is None else set(keys))
    return Frame(
        table.text(row.name),
        row.extent,
        columns,
        features["id"].copy(),
        features["has_id"] == 1,
        _shapes(table, features),
    )


def frame_of_layer(layer: Layer) -> Frame:
    """The frame of a layer of plain objects."""
    from ._mvt import rows, write

    return frame_of(rows(write(Tile([layer]))), layer.name)


def _row_of(table: Rows, layer: Union[str, LayerRow]) -> LayerRow:
    if not isinstance(layer, str):
        return layer
    for row in table.layers:
        if row.version == 2 and table.text(row.name) == layer:
            return row
    raise NoLayer(layer)


def _slice(span: Any) -> slice:
    return slice(span.start, span.start + span.len)


def _spread(starts: Array, lengths: Array, length: int) -> Tuple[Array, Array]:
    """The indexes in a list that spans name, one span after another, and where each of them begins."""
    lengths = lengths.astype(numpy.int64)
    offsets = numpy.zeros(len(lengths) + 1, numpy.int64)
    numpy.cumsum(lengths, out=offsets[1:])
    if offsets[-1] > length + _MOST:
        raise MemoryError("rows whose spans overlap too often")
    return numpy.arange(offsets[-1]) + numpy.repeat(starts.astype(numpy.int64) - offsets[:-1], lengths), offsets


def _shapes(table: Rows, features: Array) -> Shapes:
    parts, points = table.array("parts"), table.array("points")
    at, offsets = _spread(features["parts"]["start"], features["parts"]["len"], len(parts))
    spans = parts[at]["points"]
    places, starts = _spread(spans["start"], spans["len"], len(points))
    pairs = points.view(numpy.int32).reshape(-1, 2)
    return Shapes(features["kind"].astype(numpy.uint8), offsets, parts[at]["exterior"] == 1, starts, pairs[places])


def _columns(table: Rows, row: LayerRow, features: Array, wanted: Optional[Any]) -> Dict[str, Array]:
    tags = table.array("tags")
    at, offsets = _spread(features["tags"]["start"], features["tags"]["len"], len(tags))
    named = tags[at].astype(numpy.int64)
    owners = numpy.repeat(numpy.arange(len(features)), numpy.diff(offsets) // 2)
    keys, values = named[::2] + row.keys.start, named[1::2] + row.values.start
    order = numpy.argsort(keys, kind="stable")
    found: Dict[str, List[Array]] = {}
    for key, chosen in _groups(keys[order], order):
        text = table.text(table.keys[key])
        if wanted is None or text in wanted:
            found.setdefault(text, []).append(chosen)
    if len(found) * len(features) > _MOST:
        raise MemoryError(f"{len(found)} columns of {len(features)} features: name the `keys` that are wanted")
    column_of = _Columns(table, len(features))
    return {text: column_of(owners[chosen], values[chosen]) for text, chosen in _joined(found)}


def _groups(keys: Array, order: Array) -> Iterator[Tuple[int, Array]]:
    """Each key, in order, with where it stands."""
    if len(keys):
        begins = numpy.flatnonzero(numpy.diff(keys, prepend=keys[0] - 1))
        yield from zip(keys[begins].tolist(), numpy.split(order, begins[1:]))


def _joined(found: Dict[str, List[Array]]) -> Iterator[Tuple[str, Array]]:
    for text, several in found.items():
        yield text, several[0] if len(several) == 1 else numpy.concatenate(several)


class _Columns:
    """Makes columns of so many features."""

    def __init__(self, table: Rows, length: int) -> None:
        self._values, self._length = table.array("values"), length
        self._texts: bytes = table.array("texts").tobytes()

    def __call__(self, owners: Array, values: Array) -> Array:
        """The column of the values that some features have."""
        used = self._values[values]
        kinds = set(numpy.unique(used["kind"]).tolist())
        if kinds == {_TEXT}:
            return self._placed(owners, self._text_objects(values), object)
        if kinds == {_BOOL}:
            return self._placed(owners, used["bits"] == 1, bool)
        if kinds & {_TEXT, _BOOL}:
            return self._placed(owners, self._objects(values), object)
        return self._numbers(owners, used, kinds)

    def _placed(self, owners: Array, made: Array, kind: Any) -> Array:
        if len(owners) < self._length and kind is not float:
            kind, made = object, made.astype(object)
        column = numpy.full(self._length, numpy.nan if kind is float else None if kind is object else 0, kind)
        column[owners] = made
        return column

    def _numbers(self, owners: Array, used: Array, kinds: Any) -> Array:
        """Whole numbers as such where each feature has one, else doubles, if these have each of the numbers."""
        signed = numpy.isin(used["kind"], (_INT, _SINT))
        whole = signed | (used["kind"] == _UINT)
        bits = used["bits"]
        below, above = signed & (bits >> numpy.uint64(63) == 1), ~signed & (bits >> numpy.uint64(63) == 1)
        if whole.all() and len(owners) == self._length and not (below.any() and (above & whole).any()):
            return (
                self._placed(owners, bits, numpy.uint64)
                if (above & whole).any()
                else self._placed(owners, bits.view(numpy.int64), numpy.int64)
            )
        size = numpy.where(below, ~bits + numpy.uint64(1), bits)
        if (whole & (size >= numpy.uint64(1 << 53))).any():
            return self._placed(owners, self._objects_of(used), object)
        return self._placed(owners, _doubles(used, signed), float)

    def _text_objects(self, values: Array) -> Array:
        different, again = numpy.unique(values, return_inverse=True)
        spans = self._values[different]["text"]
        ends = (spans["start"] + spans["len"]).tolist()
        made = numpy.empty(len(different), object)
        made[:] = [str(self._texts[start:end], "utf-8") for start, end in zip(spans["start"].tolist(), ends)]
        return made[again]

    def _objects(self, values: Array) -> Array:
        """Values of several kinds, each as Python has it."""
        used = self._values[values]
        made = self._objects_of(used)
        is_text, is_truth = used["kind"] == _TEXT, used["kind"] == _BOOL
        if is_text.any():
            made[is_text] = self._text_objects(values[is_text])
        made[is_truth] = (used["bits"][is_truth] == 1).astype(object)
        return made

    def _objects_of(self, used: Array) -> Array:
        """Numbers, each as Python has it."""
        made = numpy.empty(len(used), object)
        signed, unsigned = numpy.isin(used["kind"], (_INT, _SINT)), used["kind"] == _UINT
        real = numpy.isin(used["kind"], (_FLOAT, _DOUBLE))
        made[signed] = used["bits"][signed].view(numpy.int64).astype(object)
        made[unsigned] = used["bits"][unsigned].astype(object)
        made[real] = _doubles(used[real], signed[real]).astype(object)
        return made


def _doubles(used: Array, signed: Array) -> Array:
    """Numbers as doubles."""
    bits = numpy.ascontiguousarray(used["bits"])
    singles = numpy.where(used["kind"] == _FLOAT, bits, 0).astype(numpy.uint32).view(numpy.float32)
    made = numpy.where(signed, bits.view(numpy.int64).astype(float), bits.astype(float))
    with numpy.errstate(invalid="ignore"):
        made = numpy.where(used["kind"] == _FLOAT, singles.astype(float), made)
    return numpy.where(used["kind"] == _DOUBLE, bits.view(float), made)
