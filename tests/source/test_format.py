"""Each crate stands as `rt fmt` leaves it, which is run on a copy of its files: `rt ci` refuses any other, after it proved the
crates below it."""

import shutil
import subprocess
from pathlib import Path

import pytest

TOP = Path(__file__).resolve().parents[2]


def texts(crate):
    return {path.relative_to(crate): path.read_text() for path in (crate / "src").rglob("*.rt")}


@pytest.mark.parametrize("crate", sorted(path.name for path in TOP.glob("crates/mvt_*")))
def test_format(crate, tmp_path):
    if shutil.which("rt") is None:
        pytest.skip("rt isn't there")
    for name in ["crates.txt", "HANDLES"]:
        shutil.copy(TOP / name, tmp_path)
    copy = shutil.copytree(TOP / "crates" / crate, tmp_path / "crates" / crate, ignore=shutil.ignore_patterns("out"))
    ran = subprocess.run(["rt", "fmt"], cwd=copy, capture_output=True, text=True)
    assert ran.returncode == 0, ran.stdout + ran.stderr
    assert texts(copy) == texts(TOP / "crates" / crate)
