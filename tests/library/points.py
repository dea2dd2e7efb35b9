"""The example of a tile made from points: the places of town.geojson come to where GDAL put them, to one unit."""

import csv
import io
import json
import os
import subprocess
import sys
from pathlib import Path

import libmvt

ROOT = Path(__file__).resolve().parents[2]
EXAMPLE = ROOT / "examples" / "python" / "points.py"
TILES = ROOT / "fixtures" / "tiles"


def made(rows, *words):
    table = io.StringIO()
    writer = csv.DictWriter(table, ["lon", "lat", "id", "name", "population", "height"])
    writer.writeheader()
    writer.writerows(rows)
    run = subprocess.run(
        [sys.executable, EXAMPLE, *words], input=table.getvalue().encode(), capture_output=True, check=True
    )
    return run.stdout


town = json.loads((TILES / "town.geojson").read_text())["features"]
places = [feature for feature in town if feature["geometry"]["type"] == "Point"]
rows = []
for feature in places:
    lon, lat = feature["geometry"]["coordinates"]
    kept = {key: feature["properties"][key] for key in ("name", "population", "height")}
    rows.append({"lon": lon, "lat": lat, "id": feature["id"], **kept})
elsewhere = {"lon": -120, "lat": 40, "name": "elsewhere"}
tile = made([*rows, elsewhere], "places", "14", "8192", "8191")

told = subprocess.run([os.environ["MVT"], "check"], input=tile, capture_output=True, check=True).stdout
assert told.splitlines()[0] == b"ok layers 1 features %d canonical yes" % len(places), told
[layer] = libmvt.read(tile).layers
assert (layer.name, layer.extent) == ("places", 4096)
by_name = {
    feature.attributes["name"]: feature for feature in libmvt.read((TILES / "gdal.mvt").read_bytes()).layers[0].features
}
for feature, row in zip(layer.features, rows):
    assert feature.id == row["id"]
    assert feature.attributes == {key: row[key] for key in ("name", "population", "height")}, feature
    [(x, y)], [(u, v)] = feature.geometry, by_name[row["name"]].geometry
    assert abs(x - u) <= 1 and abs(y - v) <= 1, (feature, u, v)
assert len(layer.features) == len(rows) >= 2
refused = subprocess.run([sys.executable, EXAMPLE, "places", "14", "8192"], capture_output=True)
assert refused.returncode == 1 and b"points.py LAYER Z X Y" in refused.stderr
