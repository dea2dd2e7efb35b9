"""Where a tile's bytes first differ from its canonical ones: field by field, so that a length isn't blamed for what is in it.
Which fields and integers there are the library says, as round a fault."""

from typing import Any, Callable, Dict, List, Optional, Sequence, TypeVar

import libmvt
from libmvt import Bounds, Field, Integer

_Row = TypeVar("_Row")

# Causes whose place is an offset, and so leads to the message that has it, and an index, and so leads to the feature.
_OFFSET, _INDEX = (
    next(number for number, each in libmvt.CAUSES.items() if each == name) for name in ("Truncated", "KeyIndex")
)

# The names of the fields that tiles know, by the message that has them.
_NAMES: Dict[str, Dict[int, str]] = {
    "tile": {3: "layer"},
    "layer": {1: "name", 2: "feature", 3: "key", 4: "value", 5: "extent", 15: "version"},
    "feature": {1: "id", 2: "tags", 3: "type", 4: "geometry"},
    "value": {1: "string", 2: "float", 3: "double", 4: "int", 5: "uint", 6: "sint", 7: "bool"},
}
_TAGS, _BYTES = 2, 2


class _Message:
    """A message of a tile: its bytes, its fields, and the indices of its layer and its feature."""

    def __init__(
        self, tile: bytes, bounds: Bounds, kind: str, layer: Optional[int] = None, feature: Optional[int] = None
    ) -> None:
        self.tile, self.bounds, self.kind, self.layer = tile, bounds, kind, layer
        cause = _INDEX if kind == "feature" else _OFFSET
        self.around = libmvt.around(tile, libmvt.Refused(layer, feature, bounds.body, cause, libmvt.CAUSES[cause]))
        self.count = len(self.around.fields) if bounds.body < bounds.end else 0

    def content(self, bounds: Bounds) -> bytes:
        return self.tile[bounds.body : bounds.end]

    def field(self, place: int) -> Optional[Field]:
        return self.around.fields[place] if place < self.count else None

    def index(self, place: int) -> int:
        """Which of its like a field is."""
        rows = self.around.fields
        numbers = memoryview(rows.rows).cast("I")[:: rows.form.size // 4].tolist()
        return numbers[:place].count(numbers[place])

    def inside(self, name: str, index: int, field: Field) -> "_Message":
        layer, feature = index if name == "layer" else self.layer, index if name == "feature" else None
        return _Message(self.tile, field.bounds, name, layer, feature)


def first_difference(tile: bytes, canonical: bytes) -> Optional[Dict[str, Any]]:
    """Of an accepted tile: the offset in it, `at`, the fields that hold it, `trail`, and what differs, `said`; None where
    nothing does."""
    if tile == canonical:
        return None
    old, made = (_Message(each, Bounds(0, 0, len(each)), "tile") for each in (tile, canonical))
    found = _between(old, made, [])
    return {**found, "said": found["said"][0].upper() + found["said"][1:]}


def _between(old: _Message, made: _Message, trail: List[Dict[str, Any]]) -> Dict[str, Any]:
    """Of messages whose payloads differ. What stands before the difference are the same fields."""
    same = old.bounds.body + _same(old.content(old.bounds), made.content(made.bounds))
    place = _first(old.around.fields, lambda field: field.bounds.end > same) if old.count else 0
    field, other = old.field(place), made.field(place)
    if field is None:
        missing = "" if other is None else _called(old.kind, other.number)
        return _told(max(0, old.bounds.end - 1), trail, f"{missing} is missing here, and the canonical form has it.")
    name, index = _NAMES[old.kind].get(field.number), old.index(place)
    trail = [*trail, {"name": name, "number": field.number, "index": index}]
    said = _unlike(old, field, made, other)
    if said or other is None:
        return _told(field.bounds.start, trail, said)
    if name in _NAMES:
        return _between(old.inside(name, index, field), made.inside(name, index, other), trail)
    return _integers(old, field, made, other, trail)


def _unlike(old: _Message, field: Field, made: _Message, other: Optional[Field]) -> str:
    """What differs of two fields; nothing where that is within them."""
    own = _called(old.kind, field.number)
    if other is None:
        return f"here stands {own}, and the canonical form has nothing more there."
    if field.number != other.number:
        return f"here stands {own}, and in the canonical form {_called(old.kind, other.number)}."
    if field.wire_type != other.wire_type:
        return f"{own} is spelled with wire type {field.wire_type} here and {other.wire_type} in the canonical form."
    body, wanted = old.content(field.bounds), made.content(other.bounds)
    if body == wanted:
        return f"the tag or the length of {own} is spelled with more bytes than it needs."
    if _NAMES[old.kind].get(field.number) in _NAMES or (old.kind == "feature" and field.wire_type == _BYTES):
        return ""
    are = "byte is" if len(body) == 1 else "bytes are"
    return f"{own} differs: its {are} {_spelled(body)} here and {_spelled(wanted)} in the canonical form."


def _integers(old: _Message, field: Field, made: _Message, other: Field, trail: List[Dict[str, Any]]) -> Dict[str, Any]:
    """Of packed integers that differ."""
    rows, others = (each.around.tags if field.number == _TAGS else each.around.geometry for each in (old, made))
    same = field.bounds.body + _same(old.content(field.bounds), made.content(other.bounds))
    first = _first(rows, lambda each: each.start >= field.bounds.body)
    index = _first(rows, lambda each: each.end > same) - first
    mine, wanted = _integer(rows, field.bounds, index), _integer(others, other.bounds, index)
    own = _called("feature", field.number)
    if mine is None:
        return _told(field.bounds.start, trail, f"{own} has fewer integers than in the canonical form: {index}.")
    if wanted is None:
        return _told(mine.start, trail, f"{own} has more integers than in the canonical form, from index {index} on.")
    if mine.value != wanted.value:
        said = f"{own} has {mine.value} at index {index}, and the canonical form {wanted.value}."
        return _told(mine.start, trail, said)
    return _told(mine.start, trail, f"{own} has integers that are spelled with more bytes than they need.")


def _integer(rows: Sequence[Integer], bounds: Bounds, index: int) -> Optional[Integer]:
    """An integer of a field, whose list may be in others too."""
    place = index + _first(rows, lambda each: each.start >= bounds.body)
    return rows[place] if place < len(rows) and rows[place].end <= bounds.end else None


def _first(rows: Sequence[_Row], holds: Callable[[_Row], bool]) -> int:
    """The index of the first row of which something holds, as it does of all behind it."""
    low, high = 0, len(rows)
    while low < high:
        middle = (low + high) // 2
        if holds(rows[middle]):
            high = middle
        else:
            low = middle + 1
    return low


def _same(one: bytes, other: bytes) -> int:
    """How many bytes at the front are the same."""
    low, high = 0, min(len(one), len(other))
    while low < high:
        middle = (low + high + 1) // 2
        if one[low:middle] == other[low:middle]:
            low = middle
        else:
            high = middle - 1
    return low


def _told(at: int, trail: List[Dict[str, Any]], said: str) -> Dict[str, Any]:
    return {"at": at, "trail": trail, "said": said}


def _called(kind: str, number: int) -> str:
    name = _NAMES[kind].get(number)
    return f"the unknown field {number}" if name is None else f"the field {name} ({number})"


def _spelled(content: bytes) -> str:
    more = " …" if len(content) > 8 else ""
    return content[:8].hex(" ").upper() + more if content else "none"
