"""Pictures of broken tiles: what is left of a tile without its broken parts, and the broken feature on top."""

import re
import time
from typing import List, NamedTuple, Optional, Tuple

import libmvt

from libmvt import Around, Path

from ... import bounds
from .shapes import Point, position

# So many integers of a geometry may stand for the points that are drawn before the fault, and behind it: two for each of them.
_INTEGERS = 2 * bounds.POINTS
_RED = "#e3000f"
# The circle's radius, as a part of the picture's side.
_RING = 0.03
_TITLE = re.compile(r"<title>[^<]*</title>\n?")


class Picture(NamedTuple):
    """An SVG document, and what it shows."""

    svg: str
    told: str


def _without(tile: bytes, fault: libmvt.Refused) -> bytes:
    """The tile without the feature, the layer or the end that a fault names."""
    around = libmvt.around(tile, fault)
    layer, feature = around.layer, around.feature
    if layer is None:
        return tile[: fault.at]
    if feature is None:
        return tile[: layer.start] + tile[layer.end :]
    body = tile[layer.body : feature.start] + tile[feature.end : layer.end]
    return tile[: layer.start] + _layer(body) + tile[layer.end :]


def _layer(body: bytes) -> bytes:
    """The field of a layer (field 3 of a tile) that has these bytes."""
    head, size = bytearray([3 << 3 | 2]), len(body)
    while size > 127:
        head.append(size & 127 | 128)
        size >>= 7
    return bytes([*head, size]) + body


def good_part(tile: bytes) -> Tuple[Optional[bytes], int]:
    """The tile without its broken parts, and how many these are; None where they are too many to be looked for."""
    begun, dropped = time.monotonic(), 0
    while time.monotonic() - begun < bounds.PICTURE_SECONDS:
        try:
            libmvt.judge(tile)
            return tile, dropped
        except libmvt.Refused as fault:
            less, dropped = _without(tile, fault), dropped + 1
            if len(less) >= len(tile):
                break
            tile = less
    return None, dropped


def _drawing(tile: bytes) -> str:
    """The picture of a tile without attributes, since a text that many features have would stand in it for each. Raises
    MemoryError where it has too many rows."""
    drawn = libmvt.read(tile, bounds.PICTURE_ROWS)
    for layer in drawn.layers:
        if isinstance(layer, libmvt.Layer):
            layer.features = [libmvt.Feature(each.id, {}, each.kind, each.geometry) for each in layer.features]
    return _TITLE.sub("", libmvt.to_svg(libmvt.write(drawn)))


def _document(content: str, box: str = "0 0 1 1") -> str:
    style = "path{stroke-linecap:round;stroke-linejoin:round}"
    return f'<svg xmlns="http://www.w3.org/2000/svg" viewBox="{box}"><style>{style}</style>{content}</svg>'


def _line(path: Path, colour: str, width: str) -> str:
    points = " ".join(f"{x} {y}" for x, y in path.points)
    if len(path.points) == 1:
        points += " l0 0"
    return _stroke(f"M{points}{'z' if path.is_closed else ''}", colour, width)


def _stroke(course: str, colour: str, width: str) -> str:
    """A line in a style of its own, which stands above that of the tile's picture."""
    return f'<path style="fill:none;stroke:{colour};stroke-width:{width}" d="{course}"/>'


def _extent(around: Around) -> int:
    told = around.extent or 0
    return told if 0 < told < 1 << 32 else 4096


class _Drawn(NamedTuple):
    """The paths of the broken feature round the fault, the extent of its layer, whether they are points, and the path and the
    point in it where the fault is, if that is in the geometry."""

    paths: List[Path]
    extent: int
    are_points: bool
    place: Optional[Tuple[Path, int]]


def _drawn(tile: bytes, fault: libmvt.Refused) -> _Drawn:
    around = libmvt.around(tile, fault)
    if around.feature is None:
        return _Drawn([], 0, False, None)
    at = fault.at if around.list == "geometry" else 0
    first = max(0, at - _INTEGERS)
    paths = around.paths(at + _INTEGERS, first)
    if first and paths:  # the beginning of the first may be missing
        paths[0] = paths[0]._replace(is_closed=False)
    return _Drawn(paths, _extent(around), around.kind == 1, position(paths, at) if around.list == "geometry" else None)


def _ring(point: Point, extent: int, side: float) -> str:
    """A circle round a place, which may be too small to be seen."""
    at = f'cx="{point[0]}" cy="{point[1]}" r="{extent * side * _RING:.1f}" fill="none"'
    white, red = f"{1.4 * side:g}%", f"{0.7 * side:g}%"
    return f'<circle {at} stroke="#fff" stroke-width="{white}"/><circle {at} stroke="{_RED}" stroke-width="{red}"/>'


class _View(NamedTuple):
    """A square of the picture, where the tile reaches from 0 to 1."""

    left: float
    top: float
    side: float

    def is_tile(self) -> bool:
        return self == _TILE


_TILE = _View(0, 0, 1)


def _view(drawn: List[Path], place: Optional[Point], extent: int) -> _View:
    """The tile, or, where the feature or the circle round the place goes beyond it, a square that has all of them."""
    points = [(x / extent, y / extent) for path in drawn for x, y in path.points]
    if place is not None:
        points += [(place[0] / extent + by, place[1] / extent + by) for by in (-_RING, _RING)]
    lows, highs = ([edge(each[axis] for each in [*points, (0, 0), (1, 1)]) for axis in (0, 1)] for edge in (min, max))
    side = max(high - low for low, high in zip(lows, highs))
    if side <= 1:
        return _TILE
    # Room for the strokes and the circle, which grow with the square.
    room = side * (1 + 4 * _RING)
    left, top = ((low + high - room) / 2 for low, high in zip(lows, highs))
    return _View(left, top, room)


def _good(tile: bytes) -> Tuple[Optional[str], int]:
    """The drawing of what is good of a tile, or None where that is too much, and how many parts aren't."""
    good, dropped = good_part(tile)
    try:
        return None if good is None else _drawing(good), dropped
    except MemoryError:
        return None, dropped


class Album:
    """The pictures of a page, which have room and time together."""

    def __init__(self) -> None:
        self._room, self._ends = bounds.PICTURES, time.monotonic() + bounds.PICTURES_SECONDS

    def of_fault(self, tile: bytes, fault: libmvt.Refused) -> List[Picture]:
        """The pictures of a broken tile: the whole, and round the place; none where they would be too much."""
        if len(tile) > bounds.TILE_OF_PICTURE or self._room < 2 * bounds.PICTURE or time.monotonic() > self._ends:
            return []
        try:
            found = [picture for picture in (of_tile(tile, fault), close_up(tile, fault)) if picture is not None]
        except MemoryError:
            return []
        self._room -= sum(len(picture.svg) for picture in found)
        return found


def of_tile(tile: bytes, fault: libmvt.Refused) -> Optional[Picture]:
    """The whole tile: what is good of it, and the broken feature in red, with a circle round the place; with the tile's
    edge where the feature goes beyond it."""
    good, dropped = _good(tile)
    drawn, extent, _, found = _drawn(tile, fault)
    place = None if found is None else found[0].points[found[1]]
    view = _view(drawn, place, extent) if drawn else _TILE
    over = "".join(_line(path, _RED, f"{0.5 * view.side:g}%") for path in drawn)
    if place is not None:
        over += _ring(place, extent, view.side)
    parts = [] if good is None else [f'<svg width="1" height="1">{good}</svg>']
    if not view.is_tile():
        parts.append(_stroke("M0 0h1v1h-1z", "#888", f"{0.004 * view.side:g}"))
    if over:
        parts.append(f'<svg width="1" height="1" overflow="visible" viewBox="0 0 {extent} {extent}">{over}</svg>')
    svg = _document("".join(parts), f"{view.left:g} {view.top:g} {view.side:g} {view.side:g}")
    if len(svg) > bounds.PICTURE or "<path" not in svg:
        return None
    is_beyond = any(not 0 <= number <= extent for path in drawn for point in path.points for number in point)
    return Picture(svg, _said(good is None, dropped, bool(over), is_beyond))


def _said(is_alone: bool, dropped: int, is_drawn: bool, is_beyond: bool) -> str:
    if is_alone:
        return "The broken feature alone: the tile has too much else."
    red = "the broken feature in red" if is_drawn else "without what is broken"
    if is_beyond:
        red += ", which goes beyond the tile's edge"
    if dropped > 1:
        return f"The tile, {red}; {dropped:,} broken parts are left out of the rest."
    return f"The tile, {red}."


def close_up(tile: bytes, fault: libmvt.Refused) -> Optional[Picture]:
    """The points round the place of a fault of the geometry."""
    drawn, _, are_points, found = _drawn(tile, fault)
    if found is None or are_points:
        return None
    path, number = found
    is_ring = fault.name == "FirstRing"
    near = path.points if is_ring and len(path.points) <= 60 else path.points[max(0, number - 5) : number + 4]
    if len(set(near)) < 2:
        return None
    left, top = min(x for x, _ in near), min(y for _, y in near)
    side = max(max(x for x, _ in near) - left, max(y for _, y in near) - top, 2)
    pad = side * 0.12
    whole = side + 2 * pad
    middle = (left + max(x for x, _ in near)) / 2, (top + max(y for _, y in near)) / 2
    box = f"{middle[0] - whole / 2:g} {middle[1] - whole / 2:g} {whole:g} {whole:g}"
    lines = "".join(_line(each, "#888", ".4%") for each in drawn if each is not path) + _line(path, _RED, ".6%")
    svg = _document(lines + _arrows(path, near, whole) + _dot(path.points[number], whole), box)
    if len(svg) > bounds.PICTURE:
        return None
    return Picture(svg, f"Round the place: {side:,} units wide. The arrows show the direction.")


def _dot(point: Point, whole: float) -> str:
    at = f'cx="{point[0]}" cy="{point[1]}" r="{whole * 0.018:g}"'
    return f'<circle {at} fill="{_RED}" stroke="#fff" stroke-width=".4%"/>'


def _arrows(path: Path, near: List[Point], whole: float) -> str:
    """An arrow in the middle of each line near the place, and a small dot at each point."""
    points = path.points + (path.points[:1] if path.is_closed else [])
    shown, size = set(near), whole * 0.022
    drawn = [f'<circle cx="{x}" cy="{y}" r="{whole * 0.008:g}" fill="#000"/>' for x, y in near]
    for a, b in zip(points, points[1:]):
        length = ((b[0] - a[0]) ** 2 + (b[1] - a[1]) ** 2) ** 0.5
        if a not in shown or b not in shown or length < 3 * size:
            continue
        x, y = (b[0] - a[0]) / length * size, (b[1] - a[1]) / length * size
        tip = (a[0] + b[0]) / 2 + x, (a[1] + b[1]) / 2 + y
        corners = (tip, (tip[0] - 2 * x - y, tip[1] - 2 * y + x), (tip[0] - 2 * x + y, tip[1] - 2 * y - x))
        drawn.append(f'<path style="stroke:none;fill:{_RED}" d="M{" ".join(f"{c[0]:g} {c[1]:g}" for c in corners)}z"/>')
    return "".join(drawn)
