"""What makes tiles large: bytes by layer, geometry and key, by hand and beside canonical tiles; and the largest of each zoom."""

import json
import sqlite3
from contextlib import closing

import archives
import libmvt
import pytest
from common import EVIDENCE, audit, example_tiles, make_mbtiles, make_tree, rows
from libmvt.raw import measured
from mvt_tools import bounds
from mvt_tools.audit import sizes
from mvt_tools.stores import Address

# The layer a: the point (25,17) with the key k and the value "xyz", by hand.
POINT = bytes.fromhex("1a1b 7802 0a0161 1209 12020000 1801 2203093222 1a016b 22050a0378797a 288020".replace(" ", ""))


def tile_of(features, name="a"):
    return libmvt.write(libmvt.Tile([libmvt.Layer(name, 4096, features)]))


def line(length, **attributes):
    """A line of so many points, each a step of (1, 1) from the one before, which takes two bytes."""
    return libmvt.Feature(None, attributes, "lines", [[(at, at) for at in range(length)]])


def test_a_point_by_hand():
    content = tile_of([libmvt.Feature(None, {"k": "xyz"}, "points", [(25, 17)])])
    # The layer's field; its geometry's field 22 03 09 32 22; the tag's two numbers, the field of the key, and that of its value
    assert measured(content) == [("a", 1, len(content), 5, [("k", 2 + 3 + 7)])]


def test_a_line_and_a_ring_by_hand():
    ring = libmvt.Feature(None, {}, "polygons", [[[(0, 0), (9, 0), (9, 9)]]])
    # MoveTo, two numbers; LineTo, two numbers for each point more; ClosePath; and the field's tag and length
    assert [each[3] for each in measured(tile_of([line(3)]))] == [2 + 3 + 1 + 4]
    assert [each[3] for each in measured(tile_of([ring]))] == [2 + 3 + 1 + 4 + 1]


def test_a_value_costs_the_first_key_that_has_it():
    content = tile_of([line(2, a=7, b=7)])
    # A tag's two numbers, the key's field, and the field of the number 7
    assert measured(content)[0][4] == [("a", 2 + 3 + 4), ("b", 2 + 3)]


def test_layers_of_canonical_tiles_are_all_their_bytes():
    found = 0
    for name, content in {**example_tiles(), **EVIDENCE}.items():
        try:
            canonical = libmvt.rewrite(content)
        except (libmvt.Refused, libmvt.TooLarge):
            continue
        layers = measured(canonical)
        assert sum(layer[2] for layer in layers) == len(canonical), name
        assert all(layer[3] + sum(cost for _, cost in layer[4]) <= layer[2] for layer in layers)
        found += bool(layers)
    assert found > 20


def test_what_is_refused_or_has_too_many_rows_is_not_measured():
    assert measured(example_tiles()["20-ZeroSegment"]) is None
    assert measured(tile_of([line(9)]), 100) is None


def test_many_keys_are_summed_up():
    content = tile_of([line(2, **{f"k{at:03}": at for at in range(300)})])
    [(_, _, _, _, keys)] = measured(content)
    assert len(keys) == 257 and keys[-1][0] is None
    # tags 256 to 299 have two numbers of two bytes; a key's field of six; and a value's field of five, since its number has two
    assert keys[-1][1] == 44 * (4 + 6 + 5)


def held_of(tiles, named=2000):
    """A database with what is counted of tiles, in two blocks by turns."""
    database = sqlite3.connect(":memory:", isolation_level=None)
    database.executescript(sizes.TABLES)
    for number in range(2):
        block = sizes.Sizes()
        for address, content in tiles[number::2]:
            block.add(address, len(content), sizes.measure(content))
        database.execute("attach ':memory:' as block")
        for table in sizes.BLOCK.split(";"):
            database.execute(table.replace("create table ", "create table block.") or "select 1")
        block.write(Into(database))
        sizes.add(database, "block", "/store")
        database.execute("detach block")
    return closing(database)


class Into:
    """Has a block be written into the database that is attached."""

    def __init__(self, database):
        self.executemany = lambda query, rows: database.executemany(
            query.replace("insert into ", "insert into block."), rows
        )


def test_the_largest_are_the_same_whichever_part_comes_first():
    tiles = [(Address(3, at, 0), tile_of([line(2 + at % 5)])) for at in range(40)]
    with held_of(tiles) as one, held_of(tiles[::-1]) as other:
        told = [sizes.told(database) for database in (one, other)]
    assert told[0] == told[1]
    assert [(each["x"], each["features"]) for each in told[0]["largest"]] == [(4, 1), (9, 1), (14, 1)]
    assert told[0]["zooms"] == [{"z": 3, "tiles": 40, "bytes": sum(len(content) for _, content in tiles), "large": 0}]


def test_names_beyond_the_most_are_summed_up(monkeypatch):
    monkeypatch.setattr(bounds, "NAMED", 5)
    monkeypatch.setattr(bounds, "NAMED_IN_ALL", 6)
    tiles = [(Address(3, at, 0), tile_of([line(2, k=1)], f"layer {at}")) for at in range(40)]
    with held_of(tiles) as database:
        told = sizes.told(database)
    assert sum(each["tiles"] for each in told["layers"]) == 40
    assert sum(each["bytes"] for each in told["layers"]) == told["zooms"][0]["bytes"]
    assert len(told["layers"]) <= 11 and None in [each["layer"] for each in told["layers"]]


@pytest.fixture(scope="module")
def made():
    """Tiles of two layers by place, of which one is large."""
    roads = libmvt.Layer("roads", 4096, [line(9, name="a"), line(9, name="b")])
    water = libmvt.Layer("water", 4096, [line(100, name="a", depth=2.5)] * 2)
    large = libmvt.Layer("water", 4096, [line(4000)] * 65)
    tiles = {(3, at, at): libmvt.write(libmvt.Tile([roads, water])) for at in range(5)}
    return {**tiles, (4, 0, 0): libmvt.write(libmvt.Tile([large])), (4, 1, 1): example_tiles()["20-ZeroSegment"]}


def test_each_store_and_its_page(made, tmp_path):
    make_tree(tmp_path / "tree", made)
    make_mbtiles(tmp_path / "a.mbtiles", made)
    (tmp_path / "a.pmtiles").write_bytes(archives.archive(dict(made)))
    for name in ("tree", "a.mbtiles", "a.pmtiles"):
        status, out, error = audit(tmp_path / name, "--into", tmp_path / f"of {name}", "--part", 2, "--json")
        assert (status, error) == (1, "")
        told = json.loads(out)["sizes"]
        # Equal tiles that stand one behind another are one run of an archive.
        assert [(each["z"], each["large"]) for each in told["zooms"]] == [(3, 0), (4, 1)]
        assert [each["layer"] for each in told["layers"]] == ["water", "roads"]
        assert (told["largest"][0]["z"], told["largest"][0]["features"]) == (4, 65)
        assert told["largest"][0]["bytes"] == len(made[4, 0, 0])
        if name != "a.pmtiles":
            assert told["zooms"][0]["bytes"] == 5 * len(made[3, 0, 0])
            assert rows(tmp_path / f"of {name}", "select sum(features) from layer_sizes where layer = 'roads'") == [
                (10,)
            ]
        report = (tmp_path / f"of {name}" / "report.html").read_text()
        assert "What makes tiles large" in report and "1 tile of more than 500,000 bytes" in report
    status, out, _ = audit(tmp_path / "tree", "--into", tmp_path / "of tree")
    [made_of] = [line for line in out.splitlines() if line.startswith("accepted tiles by size: ")]
    assert made_of.endswith("; by layer: water 100 %, roads 0 %") and "\nthe largest: 4/0/0 " in out
