"""Of an MBTiles file that a producer wrote the audit says what docs/OTHER_PROGRAMS.md says of the same tiles as files."""

import re
import subprocess
from pathlib import Path

import pytest
from common import TOP, audit, json, rows
from room import needs, run


def told(name):
    """The numbers of a set in the table: tiles, refused, these by cause, and accepted tiles by note."""
    for line in Path(TOP, "docs", "OTHER_PROGRAMS.md").read_text().splitlines():
        columns = [column.strip() for column in line.split("|")]
        if columns[2:3] == [name]:
            counts = [dict(re.findall(r"(\w+) (\d+)", column)) for column in columns[5:7]]
            return int(columns[3].replace(",", "")), int(columns[4].replace(",", "")), *counts
    raise AssertionError(f"no set {name}")


def check(folder, name):
    tiles, refused, causes, notes = told(name)
    status, out, error = audit(folder / f"{name}.mbtiles", "--into", folder / f"{name}-audit", "--json", "--anew")
    found = json.loads(out)
    assert status == 1, error
    assert (found["tiles"], found["verdicts"]["refused"]) == (tiles, refused), found
    assert {each["cause_name"]: str(each["tiles"]) for each in found["causes"]} == causes, found
    assert {note: str(count) for note, count in found["notes"].items()} == notes, found
    assert not found["verdicts"]["not unpacked"] and not found["verdicts"]["unread"], found
    [(unnamed,)] = rows(
        folder / f"{name}-audit", "select count(*) from tiles where verdict = 'refused' and layer_name is null"
    )
    assert not unnamed
    assert sum(each["tiles"] for each in found["layers"]) == refused


@needs("ogr2ogr")
def test_gdal(tmp_path):
    if subprocess.run(["dpkg", "-s", "python-cartopy-data"], capture_output=True).returncode:
        pytest.skip("evidence/producers/install wasn't run")
    run(TOP / "evidence/producers/gdal", tmp_path / "made")
    check(tmp_path / "made", "gdal-lakes")


@needs("tilemaker", "osmium")
def test_tilemaker(tmp_path):
    run(TOP / "evidence/producers/tilemaker", tmp_path / "made")
    check(tmp_path / "made", "tilemaker-world")
