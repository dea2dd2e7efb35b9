"""The layers and features of rows, one object at a time."""

import struct
from functools import lru_cache
from typing import Any, Callable, Dict, Iterator, List

from ._mvt import FeatureRow, LayerRow, Rows, Span, ValueRow
from ._tiles import KINDS, Feature
from ._values import Float, Int, Sint, Uint, Value

# So many values of a layer are held, for features to come.
_HELD = 4096


def features_of(rows: Rows, layer: LayerRow) -> Iterator[Feature]:
    """The features of a layer of version 2, in order."""
    key_of = lru_cache(_HELD)(lambda at: rows.text(rows.keys[layer.keys.start + at]))
    value_of = lru_cache(_HELD)(lambda at: _value(rows, rows.values[layer.values.start + at]))
    for at in _range(layer.features):
        row = rows.features[at]
        attributes = _attributes(rows, row.tags, key_of, value_of)
        kind = KINDS[row.kind]
        yield Feature(row.id if row.has_id else None, attributes, kind, _geometry(rows, row, kind))


def _range(span: Span) -> range:
    return range(span.start, span.start + span.len)


def _attributes(
    rows: Rows, span: Span, key_of: Callable[[int], str], value_of: Callable[[int], Value]
) -> Dict[str, Value]:
    return {key_of(rows.tags[at]): value_of(rows.tags[at + 1]) for at in _range(span)[::2]}


def _geometry(rows: Rows, row: FeatureRow, kind: str) -> List[Any]:
    if kind == "unknown":
        return [rows.integers[at] for at in _range(row.integers)]
    parts = [rows.parts[at] for at in _range(row.parts)]
    if kind == "points":
        return [point for part in parts for point in rows.line(part)]
    if kind == "lines":
        return [rows.line(part) for part in parts]
    polygons: List[List[Any]] = []
    for part in parts:
        if part.exterior:
            polygons.append([])
        polygons[-1].append(rows.line(part))
    return polygons


def _value(rows: Rows, row: ValueRow) -> Value:
    """By the kinds of values of mvt.h."""
    signed = row.bits - (1 << 64 if row.bits >> 63 else 0)
    if row.kind == 1:
        return rows.text(row.text)
    if row.kind == 2:
        return Float(bits=row.bits)
    if row.kind == 3:
        [double] = struct.unpack("<d", struct.pack("<Q", row.bits))
        return float(double)
    if row.kind == 7:
        return bool(row.bits)
    return Uint(row.bits) if row.kind == 5 else Int(signed) if row.kind == 4 else Sint(signed)
