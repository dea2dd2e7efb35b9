"""The library's calls as the page asks for them. An answer is the call's status and what refused bytes look like (an
mvt_lookalike, or 0), of 32 bits each, and then

- for status 0 what the call hands out: bytes, or rows, as they lie in memory;
- for status 1 the fault: layer, feature, place, cause, the length of the cause's name, and the name; where the bytes look like
  something the length of the sentence that says so, of 32 bits, and the sentence; of `explain` then its place: whether there is
  a layer's name and a feature's id, of 32 bits each, the id, where the bytes begin and end that the fault is about, the lengths
  of the layer's name and of the sentence, the name, with U+FFFD for what of it isn't UTF-8, and the sentence.

The rows of a tile are nine counts of 64 bits in the order of `mvt_tile`, and the lists, each from the next multiple of 8. A survey
is the number of layers, that of features, and 1 if the bytes are canonical, of 64 bits each, and then the rows of the notes.
"""

import json
import struct
from contextlib import suppress
from functools import partial
from typing import Any, Callable, Dict, List, Optional, Sequence

import libmvt
from libmvt.geojson import Place, objects_of, parts_of
from libmvt.raw import json_lent, lint_rows, lookalike, measured, survey_rows, svg_lent

from .. import bounds
from ..stores import place_of
from . import differ, frames, mending
from .around import told as around_told
from .frames import Part

OK, REFUSED, NO_MEMORY, TOO_LARGE, NO_LAYER, BAD_NAME = range(6)

# The pieces of an answer. Those that the library made aren't copied.
Answer = List[Part]


def _answered(call: Callable[..., Sequence[Part]], tile: libmvt.Buffer, *words: Any) -> Answer:
    """What a call hands out of a tile, or what it raises."""
    try:
        return [_head(OK), *call(tile, *words)]
    except libmvt.Refused as fault:
        return [_refused(fault, tile)]
    except libmvt.NoLayer:
        return [_head(NO_LAYER)]
    except libmvt.TooLarge:
        return [_head(TOO_LARGE)]
    except MemoryError:
        return [_head(NO_MEMORY)]


def _judged(tile: libmvt.Buffer) -> Answer:
    libmvt.judge(tile)
    return []


def _surveyed(tile: libmvt.Buffer) -> Answer:
    layers, features, is_canonical, notes = survey_rows(tile)
    return [struct.pack("<3Q", layers, features, is_canonical), notes]


def _read(tile: libmvt.Buffer) -> Answer:
    """The counts of rows, and the bytes of each list."""
    rows = libmvt.rows(tile, bounds.ROWS_OF_PAGE)
    pieces: Answer = [struct.pack("<9Q", *(len(getattr(rows, name)) for name in _LISTS))]
    for content in map(memoryview, rows.buffers()):
        pieces += [content, bytes(-len(content) % 8)]
    return pieces


_LISTS = ("layers", "features", "keys", "values", "tags", "parts", "points", "integers", "texts")


def _explain(tile: bytearray) -> Answer:
    """Where and why a tile is refused; of an accepted one only that."""
    try:
        libmvt.judge(tile)
        return [_head(OK)]
    except libmvt.Refused as fault:
        return [_refused(fault, tile), _explained(fault)]
    except MemoryError:
        return [_head(NO_MEMORY)]


def _around(tile: bytes) -> Answer:
    """What there is round the fault of a tile that is refused, as JSON: nothing where there is no memory for it, or no fault, or
    where the tile is large."""
    told = {"integers": None, "shape": None}
    try:
        libmvt.judge(tile)
    except libmvt.Refused as fault:
        if len(tile) <= bounds.AROUND:
            with suppress(MemoryError):
                told = around_told(tile, fault)
    return [_spelled(told)]


def _canonical(tile: bytes) -> Answer:
    """How many bytes the canonical form has, and where the tile first differs from it, as JSON; that isn't told where there is
    no memory for it, or where the tile is large."""
    made = libmvt.rewrite(tile)
    found = None
    if max(len(tile), len(made)) <= bounds.AROUND:
        with suppress(MemoryError):
            found = differ.first_difference(tile, made)
    return [_spelled({"isSame": tile == made, "length": len(made), "difference": found})]


def _mend(tile: bytes) -> Answer:
    """Frames of what was changed, as JSON, and of the mended tile."""
    made, told = mending.told(tile)
    return frames.spelled([[_spelled(told)], [made]])


def _extract(body: bytearray) -> Answer:
    """Of frames: names, and behind them the tile."""
    *names, place = frames.places(body, least=1)
    try:
        wanted = [bytes(body[name]).decode() for name in names]
    except UnicodeDecodeError:
        return [_head(BAD_NAME)]
    return _answered(lambda tile: [libmvt.extract(tile, wanted)], memoryview(body)[place])


def _surveys(body: bytearray) -> Answer:
    """Of frames of tiles: frames of answers."""
    view = memoryview(body)
    return frames.spelled([_answered(_surveyed, view[place]) for place in frames.places(body)])


def _sizes(tile: libmvt.Buffer) -> Answer:
    """Of each layer the bytes, and those of its geometries, as JSON."""
    layers = measured(tile, bounds.ROWS_OF_PAGE)
    if layers is None:
        raise MemoryError
    return [_spelled([[bytes, geometry] for _, _, bytes, geometry, _ in layers])]


def _geojson(body: bytearray) -> Answer:
    """Of frames, the tile's place (Z/X/Y, or nothing) and the tile: GeoJSON, in degrees where there is a place, and else in
    units of the tile."""
    place, tile, *others = frames.places(body, least=2)
    spelled = bytes(body[place]).decode("utf-8", "replace")
    where = place_of(spelled.split("/")) if spelled else None
    if others or (spelled and where is None):
        raise frames.FrameError("it is a place and a tile")
    return _answered(_collection, memoryview(body)[tile], where)


def _collection(tile: memoryview, place: Optional[Place]) -> Answer:
    made = bytearray(b'{"type":"FeatureCollection","features":[')
    for part in parts_of(libmvt.rows(tile, bounds.ROWS_OF_PAGE)):
        for each in objects_of(part, place):
            end = b",\n" if made[-1:] == b"}" else b"\n"
            made += end + json.dumps(each, ensure_ascii=False, separators=(",", ":"), allow_nan=False).encode()
            if len(made) > bounds.GEOJSON:
                raise MemoryError
    return [bytes(made + b"\n]}\n")]


# What the page asks for, by its name; and which of them take frames.
CALLS: Dict[str, Callable[[bytearray], Answer]] = {
    "judge": partial(_answered, _judged),
    "explain": _explain,
    "around": lambda body: _answered(_around, bytes(body)),
    "read": partial(_answered, _read),
    "survey": partial(_answered, _surveyed),
    "findings": partial(_answered, lambda tile: [lint_rows(tile)]),
    "rewrite": partial(_answered, lambda tile: [libmvt.rewrite(tile)]),
    "canonical": lambda body: _answered(_canonical, bytes(body)),
    "mend": lambda body: _answered(_mend, bytes(body)),
    "json": partial(_answered, lambda tile: [memoryview(json_lent(tile))]),
    "svg": partial(_answered, lambda tile: [memoryview(svg_lent(tile))]),
    "extract": _extract,
    "surveys": _surveys,
    "sizes": partial(_answered, _sizes),
    "geojson": _geojson,
}
FRAMED = ("extract", "surveys", "geojson")


def _head(status: int) -> bytes:
    return struct.pack("<II", status, 0)


def _spelled(told: Any) -> bytes:
    return json.dumps(told, separators=(",", ":")).encode()


def _refused(fault: libmvt.Refused, tile: libmvt.Buffer) -> bytes:
    layer, feature = (-1 if index is None else index for index in (fault.layer, fault.feature))
    kind, name, sentence = lookalike(tile), fault.name.encode(), fault.sentence.encode()
    told = struct.pack("<IIqqQII", REFUSED, kind, layer, feature, fault.at, fault.cause, len(name)) + name
    return told if kind == 0 else told + struct.pack("<I", len(sentence)) + sentence


def _explained(fault: libmvt.Refused) -> bytes:
    name, sentence = (fault.layer_name or "").encode(), fault.sentence.encode()
    is_there = fault.layer_name is not None, fault.feature_id is not None
    place = fault.feature_id or 0, fault.start or 0, fault.end or 0
    return struct.pack("<IIQQQII", *is_there, *place, len(name), len(sentence)) + name + sentence
