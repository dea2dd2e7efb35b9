#!/usr/bin/env python3
"""Prints lands with lakes, islands in these and ponds on them, archipelagos, atolls, lakes along shores, and lands that overlap,
as GeoJSON of Web Mercator, the same for a seed: nested.py SEED"""
import json
import math
import random
import sys

WORLD = 20037508.34 * 0.85  # how far from the middle a feature stands at most, in metres
drawn = random.Random(int(sys.argv[1]))


def blob(x, y, radius, corners, rough):
    """A ring round a place: a circle with five waves."""
    waves = [(drawn.random() * math.tau, drawn.random() * rough / (k + 1)) for k in range(5)]

    def far(turn):
        return radius * (1 + sum(high * math.sin((k + 1) * turn + phase) for k, (phase, high) in enumerate(waves)))

    turns = [math.tau * at / corners for at in range(corners)]
    return [(x + far(turn) * math.cos(turn), y + far(turn) * math.sin(turn)) for turn in turns]


def places(x, y, radius, count, one, some):
    """So many places within a circle, each with the radius that it has room for."""
    for at in range(count):
        turn = math.tau * (at + drawn.random() * 0.3) / count
        far, room = (0, one) if count == 1 else (0.5 * radius, some * math.sin(math.pi / count))
        yield x + far * math.cos(turn), y + far * math.sin(turn), room * radius * drawn.uniform(0.5, 1)


def fill(x, y, radius, level, parts, part):
    """Lakes in a part, and islands in these as parts of their own, which have ponds."""
    for lake in places(x, y, radius, drawn.choice([1, 1, 2, 3, 5]), 0.6, 0.35):
        part.append(blob(*lake, drawn.choice([4, 6, 12, 24]), 0.15))
        if level > 2 or drawn.random() > 0.6:
            continue
        for island in places(*lake, drawn.choice([1, 1, 2, 4]), 0.5, 0.3):
            parts.append([blob(*island, drawn.choice([4, 5, 8, 16]), 0.12)])
            if drawn.random() < 0.5:
                fill(*island[:2], island[2] * 0.8, level + 2, parts, parts[-1])


def land(x, y, radius):
    part = [blob(x, y, radius, drawn.choice([8, 16, 32, 64]), 0.3)]
    parts = [part]
    if drawn.random() < 0.85:
        fill(x, y, radius * 0.6, 1, parts, part)
    return parts


def archipelago(x, y, radius):
    count = drawn.randint(3, 30)
    columns = math.ceil(math.sqrt(count))
    room = 2 * radius / columns
    parts = []
    for at in range(count):
        place = x - radius + room * (at % columns + 0.5), y - radius + room * (at // columns + 0.5)
        if drawn.random() < 0.3:
            parts += land(*place, room * 0.5 * drawn.choice([0.3, 0.6, 0.72]))
        else:
            parts.append(
                [blob(*place, room * 0.5 * drawn.choice([0.05, 0.2, 0.6, 0.76]), drawn.choice([4, 7, 20]), 0.25)]
            )
    return parts


def atoll(x, y, radius):
    """A land that is all shore, down to a hundredth of its radius."""
    outer, share = blob(x, y, radius, 24, 0.2), 1 - drawn.choice([0.3, 0.1, 0.03, 0.01])
    return [[outer, [(x + (u - x) * share, y + (v - y) * share) for u, v in outer]]]


def shore(x, y, radius):
    """A land with lakes along its shore, as near as a five hundredth of its radius."""
    outer, lakes = blob(x, y, radius, 32, 0.2), []

    def inward(place, metres, share=1):
        far = math.dist(place, (x, y))
        return tuple(middle + (at - middle) * (1 - metres / far) * share for at, middle in zip(place, (x, y)))

    for at in range(0, 32, drawn.choice([4, 8])):
        gap = drawn.choice([0.002, 0.01, 0.05]) * radius
        ends = outer[at], outer[(at + 1) % 32]
        lakes.append([inward(end, gap) for end in ends] + [inward(end, gap, 0.8) for end in reversed(ends)])
    return [[outer, *lakes]]


def overlap(x, y, radius):
    """A land, and another that overlaps it, lies within it, or crosses it; or a third beside them."""
    parts = [[blob(x, y, radius, 24, 0.2)]]
    kind = drawn.randrange(4)
    if kind == 0:
        return [*parts, [blob(x + radius * 1.2, y, radius * 0.9, 16, 0.2)]]
    if kind == 3:
        return [*parts, [[(x + i * radius, y + j * radius) for i, j in ((-2, -0.1), (2, -0.1), (2, 0.1), (-2, 0.1))]]]
    parts.append([blob(x + radius * 0.2, y, radius * 0.4, 12, 0.2)])
    return parts if kind == 1 else [*parts, [blob(x + 3 * radius, y, radius * 0.7, 12, 0.2)]]


def area(ring):
    return sum(a[0] * b[1] - a[1] * b[0] for a, b in zip(ring[-1:] + ring[:-1], ring))


def feature(number, kind, parts):
    polygons = []
    for part in parts:
        rings = [ring if (area(ring) > 0) == (at == 0) else ring[::-1] for at, ring in enumerate(part)]
        polygons.append([[[round(x, 3), round(y, 3)] for x, y in ring + ring[:1]] for ring in rings])
    return {
        "type": "Feature",
        "properties": {"number": number, "kind": kind.__name__},
        "geometry": {"type": "MultiPolygon", "coordinates": polygons},
    }


features = []
for kind, count, least, most in (
    (land, 500, 4.2, 6.4),
    (archipelago, 300, 4.5, 6.5),
    (atoll, 150, 4.2, 6.2),
    (shore, 250, 4.2, 6.2),
    (overlap, 300, 4.2, 6.2),
):
    for _ in range(count):
        place = drawn.uniform(-WORLD, WORLD), drawn.uniform(-WORLD, WORLD)
        features.append(feature(len(features), kind, kind(*place, 10 ** drawn.uniform(least, most))))
crs = {"type": "name", "properties": {"name": "urn:ogc:def:crs:EPSG::3857"}}
json.dump({"type": "FeatureCollection", "crs": crs, "features": features}, sys.stdout)
