"""`mvt mend`: worked rows, tiles that break another rule too, many features against these tests' own mending (mended.py), and
tiles that are made to take long."""

import json
import random

import nested
import pytest
from mended import LINES, POLYGONS, area, canonical, feature_bytes, layer_bytes, mended, shape
from test_tiles import BROKEN, broken, beside
from wire import field, packed, varint

SQUARE = [[0, 0], [10, 0], [10, 10], [0, 10]]
HOLE = [[2, 2], [2, 8], [8, 8], [8, 2]]
ISLAND = [[20, 0], [25, 0], [25, 5], [20, 5]]


def turned(ring):
    return [ring[0], *reversed(ring[1:])]


ROWS = {
    "kept": (POLYGONS, [SQUARE, HOLE], [SQUARE, HOLE], []),
    "line": (LINES, [[[0, 0], [0, 0], [4, 4]]], [[[0, 0], [4, 4]]], ["RepeatedPoint 0 count 1"]),
    "short line": (LINES, [[[1, 1], [1, 1]], [[2, 2], [3, 3]]], [[[2, 2], [3, 3]]], ["PartLeftOut 0 count 2"]),
    "no line": (LINES, [[[1, 1], [1, 1]]], [], ["FeatureLeftOut count 2"]),
    "ring": (POLYGONS, [turned(SQUARE)], [SQUARE], ["TurnedRing 0"]),
    "hole": (POLYGONS, [turned(SQUARE), turned(HOLE)], [SQUARE, HOLE], ["TurnedRing 0", "TurnedRing 1"]),
    "island": (POLYGONS, [turned(SQUARE), HOLE, turned(ISLAND)], [SQUARE, HOLE, ISLAND], ["TurnedRing 0", "TurnedRing 2"]),
    "behind a short one": (POLYGONS, [[[0, 0], [9, 9], [9, 9]], HOLE, ISLAND], [turned(HOLE), ISLAND],
        ["PartLeftOut 0 count 3", "TurnedRing 1"]),
    "closed": (POLYGONS, [[*turned(SQUARE), [0, 0]]], [SQUARE], ["RepeatedPoint 0 count 1", "TurnedRing 0"]),
    "island in a lake": (POLYGONS, [turned(SQUARE), turned(HOLE), [[4, 4], [4, 6], [6, 6], [6, 4]]],
        [SQUARE, HOLE, [[4, 4], [6, 4], [6, 6], [4, 6]]], ["TurnedRing 0", "TurnedRing 1", "TurnedRing 2"]),
    "lake before its land": (POLYGONS, [turned(ISLAND), HOLE, turned(SQUARE)], [ISLAND, SQUARE, HOLE],
        ["TurnedRing 0", "MovedRing 1 to 2", "TurnedRing 2", "MovedRing 2 to 1"]),
    "repeated and turned": (POLYGONS, [[[0, 0], *turned(SQUARE)]], [SQUARE], ["RepeatedPoint 0 count 1", "TurnedRing 0"]),
}  # fmt: skip


def lines(feature, changes, layer=0):
    return "".join(f"mended layer {layer} feature {feature}: {change}\n" for change in changes)


@pytest.mark.parametrize("name", ROWS)
def test_worked(run, name):
    kind, parts, wanted, changes = ROWS[name]
    tile = field(3, layer_bytes([feature_bytes(kind, parts)]))
    assert mended(kind, parts) == (wanted, changes)
    shapes = [shape(kind, wanted)] if wanted else []
    assert run("mend", tile=tile) == (0, field(3, canonical(shapes)), lines(0, changes))


def test_places(run):
    """Layers of every version count, and features that are left out; other fields stay."""
    row = feature_bytes(POLYGONS, [turned(SQUARE)], 7)
    gone = feature_bytes(LINES, [[[1, 1], [1, 1]]])
    foreign = field(15, 1) + field(2, gone)
    tile = field(3, foreign) + field(3, layer_bytes([gone, row])) + field(3, layer_bytes([row, gone], b"b"))
    whole = feature_bytes(POLYGONS, [SQUARE], 7)
    wanted = field(3, foreign) + field(3, layer_bytes([whole])) + field(3, layer_bytes([whole], b"b"))
    told = lines(0, ["FeatureLeftOut count 2"], 1) + lines(1, ["TurnedRing 0"], 1)
    told += lines(0, ["TurnedRing 0"], 2) + lines(1, ["FeatureLeftOut count 2"], 2)
    assert run("mend", tile=tile) == (0, wanted, told)


def test_in_pieces(run):
    """The type that counts is the last one, and integers come in several fields."""
    ints = [9, 0, 0, 26, 0, 20, 20, 0, 0, 19, 15]
    payload = field(4, packed(ints[:3])) + field(3, 2) + field(4, ints[3]) + field(3, 3) + field(4, packed(ints[4:]))
    wanted = field(3, canonical([shape(POLYGONS, [SQUARE])]))
    assert run("mend", tile=field(3, layer_bytes([payload]))) == (0, wanted, lines(0, ["TurnedRing 0"]))


@pytest.mark.parametrize("tile", ["gdal", "postgis"])
def test_whole(run, tile):
    """What keeps every rule is rewritten."""
    assert run("mend", tile=beside(tile, "mvt")) == (0, beside(tile, "canonical.mvt"), "")


@pytest.mark.parametrize("name, line", [(name, line) for name, _, line in BROKEN], ids=[row[0] for row in BROKEN])
def test_broken(run, name, line):
    status, output, told = run("mend", tile=broken(name))
    if name[:2] in ("20", "22") and status == 0:
        assert told.startswith("mended layer 0 feature 0: ")
        assert run("check", tile=output).status == 0
    else:
        assert (status, output) == (1, b"")
        assert told == f"{line}\nmvt: not mended: another rule is broken\n"


@pytest.mark.parametrize("name", [row[0] for row in BROKEN if row[0][:2] not in ("20", "22", "25")])
def test_broken_twice(run, name):
    """A tile that can be mended but for another rule is refused with its first fault."""
    row = field(3, layer_bytes([feature_bytes(POLYGONS, [turned(SQUARE)])], b"first"))
    told = "layer 0 feature 0 at 10: 22 FirstRing\nmvt: not mended: another rule is broken\n"
    assert run("mend", tile=row + broken(name)) == (1, b"", told)


def test_crossing(run):
    """Two rings that cross are told by their indices, the larger one first, after the fault."""
    whole = feature_bytes(POLYGONS, [SQUARE])
    cross = feature_bytes(POLYGONS, [[[0, 40], [0, 60], [100, 60], [100, 40]], [[40, 0], [40, 90], [60, 90], [60, 0]]])
    status, output, told = run("mend", tile=field(3, layer_bytes([whole, cross])))
    assert (status, output) == (1, b"")
    assert told == "layer 0 feature 1 at 10: 22 FirstRing\nmvt: not mended: layer 0 feature 1: rings 0 and 1 cross\n"


def random_part(chance, span, points):
    """Points of which some repeat the one before them."""
    part = [[chance.randint(-span, span), chance.randint(-span, span)]]
    while len(part) < points:
        part.append(part[-1] if chance.random() < 0.2 else [chance.randint(-span, span), chance.randint(-span, span)])
    return part


def random_feature(chance):
    """A feature that breaks one of the two rules, and can be mended."""
    while True:
        kind, span = chance.choice([LINES, POLYGONS]), chance.choice([1, 2, 4, 9, 1000])
        least = 2 if kind == LINES else 3
        parts = [random_part(chance, span, chance.randint(least, 7)) for _ in range(chance.randint(1, 6))]
        try:
            made, changes = mended(kind, parts)
        except nested.Crossing:
            continue
        if changes and (kind == LINES or not made or area(made[0]) > 0):
            return kind, parts, made, changes


@pytest.mark.parametrize("seed", range(5))
def test_features(run, seed):
    """10,000 changed features, and their points and changes."""
    chance = random.Random(seed)
    features = [random_feature(chance) for _ in range(2000)]
    tile = field(3, layer_bytes([feature_bytes(kind, parts) for kind, parts, _, _ in features]))
    status, output, told = run("mend", tile=tile)
    wanted = [shape(kind, made) for kind, _, made, _ in features if made]
    assert status == 0
    shown = json.loads(run("show", tile=output).output)
    assert [feature["geometry"] for feature in shown["layers"][0]["features"]] == wanted
    assert output == field(3, canonical(wanted))
    assert told == "".join(lines(index, changes) for index, (*_, changes) in enumerate(features))
    assert run("mend", tile=output) == (0, output, "")


def test_equal_points(run):
    """A ring of 5,000,000 points at one place."""
    ring = varint(9) + bytes(2) + varint(4_999_999 << 3 | 2) + bytes(2 * 4_999_999) + b"\x0f"
    tile = field(3, layer_bytes([field(3, POLYGONS) + field(4, ring)]))
    assert run("mend", tile=tile) == (0, field(3, canonical([])), lines(0, ["FeatureLeftOut count 5000000"]))


def test_features_left_out(run):
    """A million features, none of which stays."""
    gone = feature_bytes(LINES, [[[1, 1], [1, 1]]])
    status, output, told = run("mend", tile=field(3, layer_bytes([gone] * 1_000_000)))
    assert (status, output) == (0, field(3, canonical([])))
    assert told.count("\n") == 1_000_000 and told.endswith("feature 999999: FeatureLeftOut count 2\n")


def test_many_rings(run):
    """100,000 rings in one of 100,000 points take too many steps."""
    comb = [[x, 5000 * (x % 2)] for x in range(99_998)] + [[99_998, 100_000], [0, 100_000]]
    outer = comb if area(comb) < 0 else [comb[0], *reversed(comb[1:])]
    inner = [[50_000, 50_000], [50_000, 50_001], [50_001, 50_001]]
    tile = field(3, layer_bytes([feature_bytes(POLYGONS, [outer] + [inner] * 100_000)]))
    status, output, told = run("mend", tile=tile)
    assert (status, output) == (1, b"")
    assert told == run("check", tile=tile).errors + "mvt: not mended: rings take more than 1073741824 steps\n"
