"""What the tests of mvt-audit share when pytest runs them."""

import os
import sys
from pathlib import Path

import pytest

# What is started elsewhere finds the module too.
if os.environ.get("PYTHONPATH"):
    os.environ["PYTHONPATH"] = os.pathsep.join(map(os.path.abspath, os.environ["PYTHONPATH"].split(os.pathsep)))
sys.path.insert(0, str(Path(__file__).parent))


@pytest.fixture
def store(tmp_path):
    """A folder of a good, a refused and an empty tile."""
    from common import at_places, example_tiles, make_tree

    tiles = example_tiles()
    make_tree(tmp_path / "store", at_places([tiles["gdal"], tiles["20-ZeroSegment"], b""]))
    return tmp_path / "store"


def _listed(folder, count):
    """A list that names small tiles so many times."""
    from common import at_places, example_tiles, make_tree

    small = [tile for name, tile in example_tiles().items() if len(tile) < 2000]
    make_tree(folder / "large", at_places(small[:100]))
    names = [f"large/{path.relative_to(folder / 'large')}\n" for path in sorted((folder / "large").rglob("*.mvt"))]
    (folder / "large.txt").write_text("".join(names) * (count // len(names)))
    return folder / "large.txt"


@pytest.fixture
def large(tmp_path):
    """A list of 20,000 tiles, which takes a second or some."""
    return _listed(tmp_path, 20_000)


@pytest.fixture
def larger(tmp_path):
    """A list of 150,000 tiles, which takes several seconds on any machine."""
    return _listed(tmp_path, 150_000)
