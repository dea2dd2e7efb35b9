"""README.md's Python, and the whole module's tests, by the Python, numpy, shapely and geopandas of Debian 13, which are unpacked
into a folder of their own. README.md's Python is also run by the Python here."""

import importlib.util
import os
import subprocess
import sys
from pathlib import Path

import pytest
from room import TILES, TOP, made, run

HERE = Path(__file__).parent
PARTS = [
    "around", "building", "cases", "frames", "interpreters", "layout", "lifetimes", "mending", "module", "places", "properties",
    "sizes", "threads", "writing",
]  # fmt: skip


@pytest.fixture(scope="module")
def trixie():
    """The Python of Debian 13."""

    def make(path):
        told = subprocess.run([HERE / "debian", "trixie", path], capture_output=True, text=True)
        assert told.returncode in (0, 3), told.stdout + told.stderr
        if told.returncode:
            (path / "missing").write_text(told.stdout)

    root = made("trixie", make)
    if (root / "missing").exists():
        pytest.skip((root / "missing").read_text().strip())
    return root / "usr/bin/python3"


def readme():
    """The lines of Python in README.md, over an example tile."""
    section = (TOP / "README.md").read_text().split("\n## Python\n")[1].split("\n## ")[0]
    lines = [line[4:] for line in section.splitlines() if line.startswith("    ")]
    return "\n".join(lines).replace("town.mvt", str(TILES / "gdal.mvt"))


def runs(python):
    code = readme()
    assert code.count("libmvt.to_geopandas(") == 1
    code = (
        code.replace("libmvt.to_geopandas(", "made = libmvt.to_geopandas(")
        + "\nprint(len(made), *made.geometry.geom_type)"
    )
    told = run(python, "-c", code).stdout.splitlines()
    assert told[0] == "[('places', 3), ('roads', 2), ('water', 2)]" and "Mill Pond" in told[1]
    assert told[2] == "2 Polygon MultiPolygon"


@pytest.mark.skipif(importlib.util.find_spec("geopandas") is None, reason="geopandas isn't there")
def test_readme_here():
    runs(sys.executable)


@pytest.mark.xdist_group("trixie")
def test_readme(trixie):
    runs(trixie)


@pytest.mark.xdist_group("trixie")
@pytest.mark.parametrize("part", PARTS)
def test_part(trixie, part):
    told = run(trixie, "-m", "pytest", "-q", "-rs", HERE / f"test_{part}.py", env=os.environ).stdout
    assert " passed" in told and ("skipped" not in told or "geopandas isn't there" not in told), told
