"""The example of a layer as GeoJSON gives back what the tile was made from (town.geojson), to the tile's precision."""

import json
import subprocess
import sys
from pathlib import Path

TILES = Path(__file__).resolve().parents[2] / "fixtures" / "tiles"
UNIT = 360 / 2**14 / 4096


def layer(*words):
    tile = (TILES / "postgis.mvt").read_bytes()
    return json.loads(subprocess.run([sys.argv[1], *words], input=tile, capture_output=True, check=True).stdout)


def positions(coordinates):
    """All positions of a geometry."""
    if isinstance(coordinates[0], (int, float)):
        return [coordinates]
    return [position for part in coordinates for position in positions(part)]


def rings(geometry):
    polygons = geometry["coordinates"]
    return [ring for polygon in (polygons if geometry["type"] == "MultiPolygon" else [polygons]) for ring in polygon]


def twice_area(ring):
    return sum(a[0] * b[1] - b[0] * a[1] for a, b in zip(ring, ring[1:]))


def near(position, others):
    return any(abs(position[0] - x) <= UNIT and abs(position[1] - y) <= UNIT for x, y in others)


town = {feature["id"]: feature for feature in json.loads((TILES / "town.geojson").read_text())["features"]}
seen = set()
for name in ("places", "roads", "water"):
    for feature in layer(name, "14", "8192", "8191")["features"]:
        source = town[feature["id"]]
        seen.add(feature["id"])
        wanted = {key: value for key, value in source["properties"].items() if key != "layer"}
        assert feature["properties"] == wanted, feature
        made, given = positions(feature["geometry"]["coordinates"]), positions(source["geometry"]["coordinates"])
        assert all(near(it, given) for it in made) and all(near(it, made) for it in given), feature
        if name == "water":
            assert all(ring[0] == ring[-1] for ring in rings(feature["geometry"]))
            # Exterior rings run counterclockwise, and holes clockwise.
            exterior = rings(feature["geometry"])[0]
            assert twice_area(exterior) > 0, feature
assert seen == set(town), seen
assert layer("places")["features"][0]["geometry"]["type"] == "Point"
absent = subprocess.run([sys.argv[1], "rail"], input=(TILES / "postgis.mvt").read_bytes(), capture_output=True)
assert (absent.returncode, absent.stderr) == (1, b"layer: not in the tile: rail\n"), absent
