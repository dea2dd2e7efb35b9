"""Each tile of fixtures/tiles through each command: of whole tiles what other programs made of them
(fixtures/tiles/reference.py), of broken ones the line of their fault; and cases.txt, which the tests of each language read."""

import gzip
import sys
from pathlib import Path

import places
import pytest
from linted import FOUND
from mended import canonical
from wire import field

TILES = Path(__file__).resolve().parents[2] / "fixtures" / "tiles"
sys.path.insert(0, str(TILES))

import cases  # noqa: E402

BROKEN = [row.split("\t") for row in (TILES / "broken" / "tiles.tsv").read_text().splitlines()]
LAYERS = ["water", "roads", "places"]
CASES, SENTENCES = cases.examples(), places.documented()
# What is left of 22-FirstRing, as `mvt show` has it.
TRIANGLE = {"polygons": [{"outer": [[20, 34], [3, 6], [8, 12]], "rest": []}]}


def beside(tile, ending):
    return (TILES / f"{tile}.{ending}").read_bytes()


@pytest.mark.parametrize("tile", ["gdal", "postgis"])
@pytest.mark.parametrize(
    "words, given, wanted",
    [
        (["check"], "mvt", "check"),
        ([], "mvt", "check"),
        (["explain"], "mvt", "check"),
        (["lint"], "mvt", None),
        (["show"], "mvt", "json"),
        (["show"], "canonical.mvt", "json"),
        (["rewrite"], "mvt", "canonical.mvt"),
        (["rewrite"], "canonical.mvt", "canonical.mvt"),
        (["extract", *LAYERS], "mvt", "canonical.mvt"),
    ],
    ids=lambda it: "-".join(it) if isinstance(it, list) else it,
)
def test_whole(run, tile, words, given, wanted):
    output = beside(tile, wanted) if wanted else b""
    assert run(*words, tile=beside(tile, given)) == (0, output, "")


@pytest.mark.parametrize("tile", ["gdal", "postgis"])
def test_canonical(run, tile):
    report = beside(tile, "check").replace(b" no\n", b" yes\n")
    assert run("check", tile=beside(tile, "canonical.mvt")) == (0, report, "")


@pytest.mark.parametrize("tile", ["gdal", "postgis"])
def test_missing_layer(run, tile):
    assert run("extract", "water", "rail", tile=beside(tile, "mvt")) == (1, b"", "mvt: layer not found: rail\n")


def broken(name):
    path = TILES / "broken" / f"{name}.mvt"
    return path.read_bytes() if path.exists() else gzip.decompress(path.with_name(f"{name}.mvt.gz").read_bytes())


@pytest.mark.parametrize("command", ["check", "show", "draw", "lint", "rewrite", "extract a"])
@pytest.mark.parametrize("name, line", [(name, line) for name, _, line in BROKEN], ids=[row[0] for row in BROKEN])
def test_broken(run, name, line, command):
    assert run(*command.split(), tile=broken(name)) == (1, b"", f"{line}\n")


@pytest.fixture(scope="session")
def told(mvt):
    """The cases of the example tiles, as the program tells them now, and the tiles."""
    tiles = cases.example_tiles()
    return dict(zip(tiles, cases.written(mvt, tiles).split("\n\n"))), tiles


def test_all_cases(told):
    assert [case.name for case in CASES] == list(told[1])


@pytest.mark.parametrize("case", CASES, ids=[case.name for case in CASES])
def test_case(told, case):
    """cases.txt has what the program tells, and nothing else."""
    blocks = cases.EXAMPLES.read_bytes().decode().partition("\n")[2].rstrip("\n").split("\n\n")
    [block] = [block for block in blocks if block.startswith(f"case {case.name}\n")]
    assert block == told[0][case.name].rstrip("\n")
    assert case.tile == told[1][case.name]


@pytest.mark.parametrize(
    "case", [case for case in CASES if case.name.partition(".")[0] in ("gdal", "postgis")], ids=lambda it: it.name
)
def test_case_of_other_programs(case):
    """What the independent reading makes of the tile that other programs wrote."""
    tile, _, is_canonical = case.name.partition(".")
    report = beside(tile, "check").decode()
    assert case.said["check"] == (report.replace(" no\n", " yes\n") if is_canonical else report)
    assert case.said["show"] == beside(tile, "json").decode()
    assert case.bytes_of("canonical") == beside(tile, "canonical.mvt")
    assert b"".join(case.layers.values()) == beside(tile, "canonical.mvt")
    assert "lint" not in case.said


@pytest.mark.parametrize("case", [case for case in CASES if case.name in FOUND], ids=lambda it: it.name)
def test_case_with_a_finding(case):
    assert case.said["lint"] == f"lint {FOUND[case.name]}\n"


@pytest.mark.parametrize("name, line", [(name, line) for name, _, line in BROKEN], ids=[row[0] for row in BROKEN])
def test_broken_case(name, line):
    """The fault is that of tiles.tsv, and stands where tests/program/places.py finds it."""
    [case] = [case for case in CASES if case.name == name]
    assert case.said["fault"] == f"{line}\n"
    place = places.find(case.tile[: places.LIMIT + 1], places.fault_of(case.said["fault"]))
    assert case.said["place"] == f"{place.start} {place.end}\n"
    assert not places.failure(
        case.tile, case.said["fault"], case.said["explain"].split("\n")[:-1], SENTENCES, "mended" in case.said
    )
    mended = {"20-ZeroSegment": canonical([]), "22-FirstRing": canonical([TRIANGLE])}
    assert ("mended" in case.said) == (name in mended)
    if name in mended:
        assert case.bytes_of("mended") == field(3, mended[name])
