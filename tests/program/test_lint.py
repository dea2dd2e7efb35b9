"""`mvt lint` over known tiles, and over files."""

import sys
from pathlib import Path

import pytest
from linted import FOUND

TOP = Path(__file__).resolve().parents[2]
sys.path.insert(0, str(TOP / "evidence/viewers"))

from evidence import tiles  # noqa: E402

KNOWN = dict(tiles())
FAR = TOP / "fixtures/tiles/odd/far-point.mvt"


def test_all_are_known():
    assert set(FOUND) <= set(KNOWN)


@pytest.mark.parametrize("name", KNOWN)
def test_known(run, name):
    line = f"lint {FOUND[name]}\n" if name in FOUND else ""
    assert run("lint", tile=KNOWN[name]) == (5 if line else 0, line.encode(), "")


def test_readme():
    """README.md shows what is found in this one."""
    assert FAR.read_bytes() == KNOWN["right-16384-of-4096"]
    sample = f"    $ mvt lint < {FAR.relative_to(TOP)}\n    lint {FOUND['right-16384-of-4096']}\n"
    assert sample in (TOP / "README.md").read_text()


@pytest.fixture
def files(tmp_path):
    contents = {"good": KNOWN["no-finding"], "found": KNOWN["no-geometry"], "broken": b"\x1b"}
    for name, tile in contents.items():
        (tmp_path / name).write_bytes(tile)
    return tmp_path


@pytest.mark.parametrize(
    "names, status, tally",
    [
        (["good"], 0, None),
        (["found"], 5, None),
        (["good", "good"], 0, (2, 0, 0)),
        (["found", "good"], 5, (2, 0, 0)),
        (["found", "broken"], 1, (1, 1, 0)),
        (["broken", "absent", "found"], 3, (1, 1, 1)),
    ],
    ids=lambda it: "-".join(it) if isinstance(it, list) else None,
)
def test_files(run, files, names, status, tally):
    found = f"{files}/found: lint NoGeometry layer 0 feature 0\n" if "found" in names else ""
    told = f"{files}/broken: layer - feature - at 0: 4 WireType\n" if "broken" in names else ""
    told += f"{files}/absent: read failed\n" if "absent" in names else ""
    if tally:
        told += "mvt: {} tiles: {} accepted, {} refused, {} unread\n".format(len(names), *tally)
    assert run("lint", *[files / name for name in names]) == (status, found.encode(), told)
