"""What there is round the fault of a refused tile."""

from dataclasses import dataclass
from enum import IntEnum
from struct import Struct
from typing import Callable, Iterator, List, NamedTuple, Optional, Sequence, Tuple, TypeVar, Union, overload

from ._errors import Refused
from ._mvt import around_rows

_Buffer = Union[bytes, bytearray, memoryview]
_Row = TypeVar("_Row")

# The feature's fields whose integers a fault's place counts.
_LISTS = {2: "tags", 4: "geometry"}


class Bounds(NamedTuple):
    """The bytes of a field: where its tag begins, where its payload begins, which is after the length if it has one, and
    where both end."""

    start: int
    body: int
    end: int


class Field(NamedTuple):
    """A field of a message, and its bytes. Its wire type is 0, 1, 2 or 5."""

    number: int
    wire_type: int
    bounds: Bounds


class Integer(NamedTuple):
    """An integer of tags or of a geometry, and the bytes that spell it."""

    value: int
    start: int
    end: int


class Role(IntEnum):
    """What an integer of a geometry is: a command, or a parameter of a MoveTo or a LineTo. NOTHING is no command, has more
    than 32 bits, or stands behind such an integer or behind a position out of range."""

    NOTHING = 0
    MOVE_TO = 1
    LINE_TO = 2
    MOVE_X = 3
    MOVE_Y = 4
    LINE_X = 5
    LINE_Y = 6
    CLOSE_PATH = 7


class Step(NamedTuple):
    """What an integer of a geometry is, how many parameters of the command are still to come, and where the cursor stands
    after it."""

    role: Role
    left: int
    x: int
    y: int


class Path(NamedTuple):
    """Points that are joined, whether the last is joined to the first, and for each point the index behind its integers."""

    points: List[Tuple[int, int]]
    is_closed: bool
    behind: List[int]


class _Rows(Sequence[_Row]):
    """Rows of the library as a list that makes each when it is asked for."""

    def __init__(self, form: Struct, make: Callable[..., _Row], rows: bytes) -> None:
        self.form, self._make, self.rows = form, make, rows

    def __len__(self) -> int:
        return len(self.rows) // self.form.size

    @overload
    def __getitem__(self, index: int) -> _Row:
        ...

    @overload
    def __getitem__(self, index: slice) -> List[_Row]:
        ...

    def __getitem__(self, index: Union[int, slice]) -> Union[_Row, List[_Row]]:
        places = range(len(self))[index]
        return [self._at(place) for place in places] if isinstance(places, range) else self._at(places)

    def _at(self, place: int) -> _Row:
        return self._make(*self.form.unpack_from(self.rows, place * self.form.size))

    def __iter__(self) -> Iterator[_Row]:
        return (self._make(*row) for row in self.form.iter_unpack(self.rows))

    def __repr__(self) -> str:
        return f"<{len(self)} rows>"


@dataclass(frozen=True)
class Around:
    """What there is round a fault. What isn't there, or can't be read, is None.

    `layer`, `feature` and `message` are bytes of the tile: the message is the innermost one in which the fault is. `extent`
    and `kind`, the feature's type, are what the last field says that can be read. `list` is "tags" or "geometry" if the
    fault's `at` counts their integers. Of the layer there are the bytes of its keys, of the feature the integers of its tags
    and its geometry, and a step for each of the latter; of the message the fields, up to the first bytes that are none.
    """

    layer: Optional[Bounds]
    extent: Optional[int]
    feature: Optional[Bounds]
    kind: Optional[int]
    message: Bounds
    list: Optional[str]
    keys: _Rows[Bounds]
    tags: _Rows[Integer]
    geometry: _Rows[Integer]
    steps: _Rows[Step]
    fields: _Rows[Field]

    @property
    def roles(self) -> bytes:
        """The role of each integer of the geometry, a byte each."""
        return bytes(self.steps.rows[:: self.steps.form.size])

    def paths(self, end: Optional[int] = None, start: int = 0) -> List[Path]:
        """The points that the integers of the geometry draw, or those before an index and from another on, and the parts
        that they form."""
        found: List[Path] = []
        steps = self.steps if end is None and start == 0 else self.steps[start:end]
        for index, (role, _, x, y) in enumerate(steps, start):
            if role == Role.NOTHING:
                break
            if role == Role.CLOSE_PATH and found:
                found[-1] = found[-1]._replace(is_closed=True)
            if role not in (Role.MOVE_Y, Role.LINE_Y):
                continue
            if role == Role.MOVE_Y or not found:
                found.append(Path([], False, []))
            found[-1].points.append((x, y))
            found[-1].behind.append(index + 1)
        return found


def _field(number: int, wire_type: int, start: int, body: int, end: int) -> Field:
    return Field(number, wire_type, Bounds(start, body, end))


def _step(role: int, left: int, x: int, y: int) -> Step:
    return Step(Role(role), left, x, y)


def around(tile: _Buffer, fault: Refused) -> Around:
    """What there is round the fault of a refused tile: the layer and the feature that it names, the integers of tags and
    geometry with what they draw, and the fields round it."""
    layer, feature = (-1 if index is None else index for index in (fault.layer, fault.feature))
    of_layer, extent, of_feature, kind, message, number, keys, tags, geometry, steps, fields = around_rows(
        tile, (layer, feature, fault.at, fault.cause)
    )
    three, step, five = Struct("<QQQ"), Struct("<IIqq"), Struct("<IIQQQ")
    return Around(
        None if of_layer is None else Bounds(*of_layer),
        extent,
        None if of_feature is None else Bounds(*of_feature),
        kind,
        Bounds(*message),
        _LISTS.get(number),
        _Rows(three, Bounds, keys),
        _Rows(three, Integer, tags),
        _Rows(three, Integer, geometry),
        _Rows(step, _step, steps),
        _Rows(five, _field, fields),
    )
