"""Features as the objects of GeoJSON (RFC 7946)."""

import math
from typing import Any, Callable, Dict, List, Optional

# Larger whole numbers are others in programs that have doubles alone.
MOST_EXACT = (1 << 53) - 1

_NAMES = {"points": "Point", "lines": "LineString", "polygons": "Polygon"}

# Where a point of a tile lies.
Position = Callable[[Any], Any]


def geometry_of(kind: str, drawn: List[Any], position: Optional[Position] = None) -> Optional[Dict[str, Any]]:
    """The geometry of a feature, in the units of its tile, or else where each point lies on a map whose y goes up. None
    where nothing is drawn that GeoJSON has a word for."""
    if kind not in _NAMES or not drawn:
        return None
    parts = [_coordinates(kind, part, position) for part in drawn]
    if len(parts) == 1:
        return {"type": _NAMES[kind], "coordinates": parts[0]}
    return {"type": "Multi" + _NAMES[kind], "coordinates": parts}


def _coordinates(kind: str, part: Any, position: Optional[Position]) -> Any:
    if kind == "polygons":
        return [_ring(ring, position) for ring in part]
    if position is None:
        return part
    return position(part) if kind == "points" else list(map(position, part))


def _ring(points: List[Any], position: Optional[Position]) -> List[Any]:
    """A closed ring, an exterior one counterclockwise where y goes up."""
    is_closed = points[0] == points[-1] and len(points) > 3
    closed = points if is_closed else [*points, points[0]]
    return closed if position is None else list(map(position, reversed(closed)))


def value_of(value: Any) -> Any:
    """An attribute's value as JSON has it: what is no finite number is None."""
    if isinstance(value, float):
        return float(value) if math.isfinite(value) else None
    return int(value) if isinstance(value, int) and not isinstance(value, bool) else value


def feature_of(feature: Any, position: Optional[Position] = None) -> Dict[str, Any]:
    """A feature. A large id is a text."""
    made: Dict[str, Any] = {"type": "Feature"}
    if feature.id is not None:
        made["id"] = feature.id if feature.id <= MOST_EXACT else str(feature.id)
    made["properties"] = {key: value_of(value) for key, value in feature.attributes.items()}
    made["geometry"] = geometry_of(feature.kind, feature.geometry, position)
    return made
