"""Pictures: each is XML for Python's parser, with its layers' names and extents and a path for each feature; where there
is a Chromium, it draws them."""

import json
import shutil
import subprocess
import xml.etree.ElementTree as xml
from pathlib import Path

import pytest

TOP = Path(__file__).resolve().parents[2]
SVG = "{http://www.w3.org/2000/svg}"
TILES = ["gdal", "postgis", "point"]


def tile_of(name):
    return (TOP / "fixtures" / "tiles" / f"{name}.mvt").read_bytes()


@pytest.mark.parametrize("name", TILES)
def test_picture(run, name):
    root = xml.fromstring(run("draw", tile=tile_of(name)).output)
    layers = [layer for layer in json.loads(run("show", tile=tile_of(name)).output)["layers"] if "name" in layer]
    assert root.tag == SVG + "svg"
    squares = root.findall(SVG + "svg")
    assert len(squares) == len(layers)
    for square, layer in zip(squares, layers):
        assert square.find(SVG + "title").text == layer["name"]
        assert square.get("viewBox") == f"0 0 {layer['extent']} {layer['extent']}"
        paths = square.findall(SVG + "path")
        assert len(paths) == len(layer["features"])
        for path, feature in zip(paths, layer["features"]):
            title = json.loads(path.find(SVG + "title").text)
            assert title == {"attributes": feature["attributes"], "id": feature["id"]}
            assert path.get("class") == next(iter(feature["geometry"]))


@pytest.mark.skipif(not shutil.which("chromium"), reason="chromium isn't there")
@pytest.mark.parametrize("name", TILES)
def test_chromium_draws_it(run, tmp_path, name):
    picture, drawn = tmp_path / "tile.svg", tmp_path / "tile.png"
    picture.write_bytes(run("draw", tile=tile_of(name)).output)
    words = ["--headless", "--no-sandbox", "--disable-gpu", "--hide-scrollbars", "--window-size=512,512"]
    words += [f"--user-data-dir={tmp_path}", f"--screenshot={drawn}", picture.as_uri()]
    subprocess.run(["chromium", *words], check=True, capture_output=True, timeout=120)
    assert drawn.stat().st_size
