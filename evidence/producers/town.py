#!/usr/bin/env python3
"""Prints a made town as OSM XML: 3,000 small houses and 400 roads, the same at each run."""
import math

HOUSES = 3000
ROADS = 400
SIDE = 0.04  # degrees


def numbers():
    """Numbers from 0 to 1, by a linear congruence."""
    state = 16
    while True:
        state = (state * 1103515245 + 12345) % 2**31
        yield state / 2**31


drawn = numbers()
nodes = []
ways = []


def between(a, b):
    return a + (b - a) * next(drawn)


def node(lon, lat):
    nodes.append((lon, lat))
    return len(nodes)


def house():
    lon, lat, size, turn = between(0, SIDE), between(0, SIDE), between(0.00002, 0.0002), between(0, math.tau)
    corners = 4 + int(between(0, 5))
    refs = []
    for corner in range(corners):
        angle = turn + corner * math.tau / corners
        refs.append(
            node(lon + size * math.cos(angle) * between(0.2, 1), lat + size * math.sin(angle) * between(0.2, 1))
        )
    ways.append((refs + refs[:1], "building", "yes"))


def road():
    lon, lat, turn = between(0, SIDE), between(0, SIDE), between(0, math.tau)
    refs = []
    for _ in range(20):
        refs.append(node(lon, lat))
        turn += between(-0.5, 0.5)
        lon, lat = lon + 0.0005 * math.cos(turn), lat + 0.0005 * math.sin(turn)
    ways.append((refs, "highway", "residential"))


for _ in range(HOUSES):
    house()
for _ in range(ROADS):
    road()
print("<?xml version='1.0' encoding='UTF-8'?>\n<osm version='0.6' generator='town.py'>")
for number, (lon, lat) in enumerate(nodes, 1):
    print(f"<node id='{number}' version='1' lon='{lon:.7f}' lat='{lat:.7f}'/>")
for number, (refs, key, value) in enumerate(ways, 1):
    print(
        f"<way id='{number}' version='1'>"
        + "".join(f"<nd ref='{ref}'/>" for ref in refs)
        + f"<tag k='{key}' v='{value}'/></way>"
    )
print("</osm>")
