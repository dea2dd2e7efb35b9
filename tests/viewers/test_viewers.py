"""Mapbox GL draws, pixel by pixel the same, each example tile as it is and rewritten, and a tile that the builder of each
language made, of which the bytes are the same too."""

import os
import shutil
import subprocess
import sys
from pathlib import Path

import pytest
from room import BUILT, MVT, TILES, TOP, compiled, made, needs, run

sys.path.insert(0, str(TOP / "evidence/viewers"))
HERE = Path(__file__).parent / "built"
PACKAGES = ["libqt5location5-plugin-mapboxgl", "qmlscene", "xvfb", "python3-pil"]
ARE_THERE = subprocess.run(["dpkg", "-s", *PACKAGES], capture_output=True).returncode == 0
pytestmark = [
    pytest.mark.skipif(not ARE_THERE, reason="Mapbox GL isn't there to draw tiles"),
    pytest.mark.filterwarnings("default"),  # of Pillow, and of the server that is ended with the process
]
MAP = [("water", "fill"), ("roads", "line"), ("places", "circle")]
LAYERS = {"gdal": MAP, "postgis": MAP, "point": [("a", "circle")]}


def rewritten(tile):
    return run(MVT, "rewrite", input=tile, text=False).stdout


def drawn_the_same(one, other, layers):
    """Each layer came, and the viewer said nothing."""
    from mapbox_gl import draw

    told = draw(one, layers)
    assert told.picture is not None and all(told.columns) and not told.words, told[:2]
    assert told.picture == draw(other, layers).picture


@pytest.mark.parametrize("name", LAYERS)
def test_example(name):
    tile = (TILES / f"{name}.mvt").read_bytes()
    drawn_the_same(tile, rewritten(tile), LAYERS[name])


def by_c():
    return run(compiled(HERE / "built.c"), text=False).stdout


def by_cpp():
    return run(compiled(HERE / "built.cpp"), text=False).stdout


def by_python():
    def make(path):
        shutil.copytree(TOP / "library/python/libmvt", path / "libmvt", ignore=shutil.ignore_patterns("*.so"))
        shutil.copy(BUILT / "_mvt.abi3.so", path / "libmvt")

    environment = {**os.environ, "PYTHONPATH": str(made("module", make))}
    return run(sys.executable, HERE / "built.py", env=environment, text=False).stdout


def by_rust():
    def make(path):
        shutil.copytree(TOP / "library/rust", path, ignore=shutil.ignore_patterns("prebuilt"))
        (path / "libmvt/examples").mkdir()
        shutil.copy(HERE / "built.rs", path / "libmvt/examples")

    crate = made("rust-with-example", make)
    environment = {**os.environ, "MVT_LIB_DIR": str(BUILT), "CARGO_TARGET_DIR": str(crate / "target")}
    return run("cargo", "run", "-q", "--offline", "--example", "built", cwd=crate, env=environment, text=False).stdout


def by_go():
    def make(path):
        shutil.copytree(TOP / "library/go", path)
        run(TOP / "library/bundle-go", BUILT, path)
        (path / "built").mkdir()
        shutil.copy(HERE / "built.go", path / "built")

    environment = {**os.environ, "GOPROXY": "off", "CGO_ENABLED": "1"}
    return run("go", "run", "./built", cwd=made("go-with-example", make), env=environment, text=False).stdout


BUILDERS = {
    "c": (by_c, "cc"),
    "cpp": (by_cpp, "g++"),
    "python": (by_python, "true"),
    "rust": (by_rust, "cargo"),
    "go": (by_go, "go"),
}


@pytest.mark.parametrize(
    "make", [pytest.param(make, id=name, marks=needs(command)) for name, (make, command) in BUILDERS.items()]
)
def test_builder(make):
    tile, wanted = make(), rewritten(by_c())
    assert tile == wanted
    drawn_the_same(tile, wanted, MAP)
