"""Which files turn integers of geometries into steps, or steps into integers."""

import re
from pathlib import Path

TOP = Path(__file__).resolve().parents[2]
NAMES = re.compile(r"\b(un)?zigzag32\b")
# The crates whose matter it is, and those that ship nothing.
ELSEWHERE = {"mvt_wire", "mvt_geometry", "mvt_promises", "mvt_workloads", "mvt_bench"}


def test_no_other_walk():
    """Those that docs/DECISIONS.md names, with a reason, and no others."""
    found = {
        f"{path.parents[1].name}/src/{path.name}"
        for path in TOP.glob("crates/*/src/*.rt")
        if path.parents[1].name not in ELSEWHERE and not path.parents[1].name.endswith("_tests")
        if NAMES.search(path.read_text())
    }
    decided = next(
        line
        for line in (TOP / "docs/DECISIONS.md").read_text().splitlines()
        if "beside mvt_wire and mvt_geometry turn integers" in line
    )
    assert found == set(re.findall(r"`(mvt_\w+/src/\w+\.rt)`", decided)) and len(found) == 3
