"""Geometries mended, worked by these tests from the rules alone (Mapbox Vector Tile Specification 2.1, 4.3.3.2 and 4.3.4.4).

Points that equal the one before them go, and with them lines of one point, rings of two, and features without lines or rings.
Where the first ring has negative area, rings are told by even-odd (nested.py)."""

import itertools

import nested
from nested import area
from sizes import integers_of, strokes
from wire import field, packed

LINES, POLYGONS = 2, 3


def without_repeats(points):
    return [point for point, _ in itertools.groupby(points)]


def opened(ring):
    """Without last points that equal the first."""
    while len(ring) > 1 and ring[-1] == ring[0]:
        ring = ring[:-1]
    return ring


def kept(kind, parts):
    """The parts that stay, each with its index, in the order in which they stand then."""
    least = 2 if kind == LINES else 3
    apart = [(index, without_repeats(part)) for index, part in enumerate(parts)]
    stay = [(index, part) for index, part in apart if len(part) >= least]
    if kind == LINES or not stay or area(stay[0][1]) >= 0:
        return stay
    told = nested.told([opened(part) for _, part in apart])
    return [(index, ring) for index, ring in told if len(ring) >= 3]


def sign(ring):
    return (area(ring) > 0) - (area(ring) < 0)


def changes_of(parts, stay):
    places = {index: (place, part) for place, (index, part) in enumerate(stay)}
    before, changes = 0, []
    for index, part in enumerate(parts):
        if index not in places:
            changes.append(f"PartLeftOut {index} count {len(part)}")
            continue
        place, made = places[index]
        if len(part) > len(made):
            changes.append(f"RepeatedPoint {index} count {len(part) - len(made)}")
        if sign(part) * sign(made) < 0:
            changes.append(f"TurnedRing {index}")
        if place != before:
            changes.append(f"MovedRing {index} to {place}")
        before += 1
    return changes


def mended(kind, parts):
    """The parts that stand in place of others, and what is changed: a feature that draws comes as it is. Raises
    nested.Crossing where two rings cross."""
    if parts == [without_repeats(part) for part in parts] and (kind == LINES or area(parts[0]) > 0):
        return parts, []
    stay = kept(kind, parts)
    if not stay:
        return [], [f"FeatureLeftOut count {sum(map(len, parts))}"]
    return [part for _, part in stay], changes_of(parts, stay)


def shape(kind, parts):
    """Parts as `mvt show` has them."""
    if kind == LINES:
        return {"lines": parts}
    polygons = []
    for ring in parts:
        if area(ring) > 0:
            polygons.append({"outer": ring, "rest": []})
        else:
            polygons[-1]["rest"].append(ring)
    return {"polygons": polygons}


def feature_bytes(kind, parts, number=None):
    """The payload of a feature without tags, whatever rule it breaks; in canonical form, if it breaks none."""
    front = b"" if number is None else field(1, number)
    return front + field(3, kind) + field(4, packed(strokes(parts, [15] if kind == POLYGONS else [])))


def layer_bytes(payloads, name=b"a"):
    return field(15, 2) + field(1, name) + b"".join(field(2, payload) for payload in payloads) + field(5, 4096)


def canonical(shapes):
    """The canonical payload of a layer of geometries as `mvt show` has them."""
    payloads = []
    for it in shapes:
        ((kind, drawn),) = it.items()
        payloads.append(field(3, LINES if kind == "lines" else POLYGONS) + field(4, packed(integers_of(kind, drawn))))
    return layer_bytes(payloads)
