"""What the page shows round a fault: the integers of its list, and the shape of its feature up to there."""

from typing import Any, Dict, List, Optional, Sequence, Tuple

import libmvt
from libmvt import Around, Integer, Role, Step

from ..bounds import POINTS

# So many integers are shown before the fault and behind it.
_AROUND = 4
# So many integers are looked at for each point that is drawn, the last ones before the fault.
_LOOKED = 8
_EXTENT = 4096
# A cause of a feature's tags, round whose place stands the feature.
_OF_FEATURE = next(number for number, name in libmvt.CAUSES.items() if name == "OddTags")
_X = (Role.MOVE_X, Role.LINE_X)


def told(tile: bytes, fault: libmvt.Refused) -> Dict[str, Any]:
    """The integers round the fault of a tile, and the shape, each of them None where there is none."""
    around = libmvt.around(tile, fault)
    return {"integers": _integers(tile, fault.at, around), "shape": _shape(fault.at, around)}


def whole_shape(tile: bytes, layer: int, feature: int) -> Optional[Dict[str, Any]]:
    """The shape of a feature of any tile, as far as it can be read."""
    return _shape(0, libmvt.around(tile, libmvt.Refused(layer, feature, 0, _OF_FEATURE, libmvt.CAUSES[_OF_FEATURE])))


def _integers(tile: bytes, at: int, around: Around) -> Optional[Dict[str, Any]]:
    """Those near the place: of a tag also the key that it names, of the geometry the step up to the place."""
    if around.list is None or around.feature is None:
        return None
    is_geometry = around.list == "geometry"
    integers = around.geometry if is_geometry else around.tags
    near = range(max(0, at - _AROUND), min(len(integers), at + _AROUND + 1))
    say = _step_row if is_geometry else _tag_row
    rows = [say(tile, around, index, at, integers[index]) for index in near]
    value = integers[at].value if at < len(integers) else None
    keys = None if is_geometry else len(around.keys)
    return {"list": around.list, "index": at, "count": len(integers), "value": value, "keys": keys, "rows": rows}


def _tag_row(tile: bytes, around: Around, index: int, at: int, integer: Integer) -> Dict[str, Any]:
    key = around.keys[integer.value] if index % 2 == 0 and integer.value < len(around.keys) else None
    text = None if key is None else tile[key.body : key.end].decode("utf-8", "replace")
    return {"index": index, "value": integer.value, "key": text, "step": None}


def _step_row(tile: bytes, around: Around, index: int, at: int, integer: Integer) -> Dict[str, Any]:
    """Behind the place the meaning of an integer is another than is meant, but for the second of its pair."""
    is_due = index <= at or (index == at + 1 and around.steps[at].role in _X)
    step = _step(around.steps, index) if is_due else None
    return {"index": index, "value": integer.value, "key": None, "step": step}


def _step(steps: Sequence[Step], index: int) -> Dict[str, Any]:
    role, _, x, y = steps[index]
    before = steps[index - 1] if index > 0 else Step(Role.NOTHING, 0, 0, 0)
    command = {Role.MOVE_X: "MoveTo", Role.MOVE_Y: "MoveTo", Role.LINE_X: "LineTo", Role.LINE_Y: "LineTo"}.get(role)
    if command is None:
        names = {Role.MOVE_TO: "MoveTo", Role.LINE_TO: "LineTo", Role.CLOSE_PATH: "ClosePath"}
        return {"command": names.get(role), "axis": None}
    axis, to, move = ("x", x, x - before.x) if role in _X else ("y", y, y - before.y)
    return {"command": command, "axis": axis, "move": move, "to": to}


def _shape(at: int, around: Around) -> Optional[Dict[str, Any]]:
    """The lines of the feature: its kind, the extent, the parts, how many points they have, and the last before the fault,
    which is None where the fault isn't in the geometry."""
    if around.feature is None:
        return None
    is_inside = around.list == "geometry"
    roles = around.roles
    end = min(at, len(roles)) if is_inside else len(roles)
    nothing = roles.find(Role.NOTHING, 0, end)
    end = end if nothing < 0 else nothing
    count = roles.count(Role.MOVE_Y, 0, end) + roles.count(Role.LINE_Y, 0, end)
    if count == 0 and not is_inside:
        return None
    paths = around.paths(end, max(0, end - _LOOKED * POINTS))
    mark = paths[-1].points[-1] if paths else (0, 0)
    return {
        "kind": around.kind or 0,
        "extent": max(1, _EXTENT if around.extent is None else around.extent),
        "parts": _parts(paths),
        "count": count,
        "mark": mark if is_inside else None,
    }


def _parts(paths: Sequence[Any]) -> List[List[Tuple[int, int]]]:
    """The last parts, a closed one with its first point again behind its last."""
    parts: List[List[Tuple[int, int]]] = []
    left = POINTS
    for points, is_closed, _ in reversed(paths):
        closed = [*points, points[0]] if is_closed else points
        parts.insert(0, closed[-left:])
        left -= len(parts[0])
        if left <= 0:
            break
    return parts
