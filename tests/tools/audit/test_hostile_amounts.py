"""Stores of some kilobytes that say much: what the client and the workers take for them, and what they write."""

import gzip
import os
import resource
import sqlite3
from contextlib import closing

import libmvt
import pytest
from common import EVIDENCE, at_places, audit, example_tiles, json, make_mbtiles, rows
from mvt_tools import bounds
from mvt_tools._ending import bound_memory
from mvt_tools.audit import judging
from mvt_tools.audit.engine import Task
from mvt_tools.audit.processes import Processes
from mvt_tools.audit.report import pictures
from mvt_tools.audit.results import Block, Results
from mvt_tools.stores import Address
from mvt_tools.stores.tree import Tree
from watching import MB, Watched, on_disk
from wire import field, packed, varint, zigzag


def standing_line(length):
    """A tile of a line of so many points, whose last segment moves by nothing."""
    moves = b"\x02\x02" * (length - 3) + b"\0\0"
    integers = packed([9, zigzag(9), zigzag(9), (length - 2) << 3 | 2]) + moves
    return field(3, field(15, 2) + field(1, b"a") + field(2, field(3, 2) + field(4, integers)))


def of_names(letters, count=1):
    """A good and a refused tile with names of so many letters: a layer's, and those of so many keys."""
    keys = [(f"{at:03}" + "k" * letters) for at in range(count)]
    good = libmvt.write(
        libmvt.Tile(
            [libmvt.Layer("n" * letters, 4096, [libmvt.Feature(None, dict.fromkeys(keys, 1), "points", [(1, 1)])])]
        )
    )
    broken = field(
        3, field(15, 2) + field(1, b"n" * letters) + field(2, field(3, 2) + field(4, packed([9, 4, 4, 10, 0, 0])))
    )
    return good, broken


def packed_store(path, tiles):
    return make_mbtiles(path, at_places([gzip.compress(tile, mtime=0) for tile in tiles]))


@pytest.mark.parametrize("length", [1 << 20, 1 << 24])
def test_a_long_broken_line_takes_less_than_300_MB_of_the_client(tmp_path, length):
    store = packed_store(tmp_path / "a.mbtiles", [standing_line(length)])
    found = Watched(store, "--into", tmp_path / "audit")
    assert (found.status, found.error) == (1, "")
    assert found.client < 300 * MB
    assert on_disk(tmp_path / "audit") < MB
    assert (
        "No picture: nothing of the tile can be drawn, or it is too much"
        in (tmp_path / "audit" / "report.html").read_text()
    )


def test_a_long_line_is_drawn_where_it_is_broken():
    tile = standing_line(900_000)
    with pytest.raises(libmvt.Refused) as refused:
        libmvt.judge(tile)
    [near] = [
        picture
        for picture in pictures.Album().of_fault(tile, refused.value)
        if picture.told.startswith("Round the place")
    ]
    assert len(near.svg) < bounds.PICTURE
    assert near.svg.count(" ") > bounds.POINTS


def test_pictures_of_a_page_have_room_and_time_together(monkeypatch):
    tile = example_tiles()["20-ZeroSegment"]
    with pytest.raises(libmvt.Refused) as refused:
        libmvt.judge(tile)
    made = pictures.Album().of_fault(tile, refused.value)
    assert made
    monkeypatch.setattr(bounds, "PICTURES", 2 * bounds.PICTURE + 1)
    album = pictures.Album()
    assert [album.of_fault(tile, refused.value) for _ in range(2)] == [made, []]
    monkeypatch.setattr(bounds, "PICTURES_SECONDS", -1)
    assert pictures.Album().of_fault(tile, refused.value) == []


def test_many_names_of_megabytes_take_less_than_300_MB_and_become_less_than_2_MB(tmp_path):
    good, broken = of_names(4 * MB)
    store = packed_store(tmp_path / "a.mbtiles", [good, broken] * 10)
    found = Watched(store, "--into", tmp_path / "audit", "--json")
    assert (found.status, found.error) == (1, "")
    assert found.client < 300 * MB
    assert on_disk(tmp_path / "audit") < 2 * MB
    name = "n" * bounds.NAME + "…"
    assert [each["layer_name"] for each in json.loads(found.out)["layers"]] == [name]
    assert rows(tmp_path / "audit", "select distinct layer from layer_sizes") == [(name,)]


def test_many_keys_of_kilobytes_become_less_than_2_MB(tmp_path):
    store = packed_store(tmp_path / "a.mbtiles", [of_names(20_000, 250)[0]] * 20)
    found = Watched(store, "--into", tmp_path / "audit")
    assert (found.status, found.error) == (0, "")
    assert on_disk(tmp_path / "audit") < 2 * MB and found.client < 300 * MB
    assert rows(tmp_path / "audit", "select count(*), max(length(key)) from key_sizes") == [(250, bounds.NAME + 1)]


def test_where_names_are_cut():
    for name in ("", "a" * 200, "ä" * 100, "😀" * 50):
        assert bounds.cut(name) == name
    assert bounds.cut("a" * 201) == "a" * 200 + "…"
    assert bounds.cut("ä" * 101) == "ä" * 100 + "…"
    assert bounds.cut("a" + "😀" * 60) == "a" + "😀" * 49 + "…"


def test_names_that_are_cut_are_those_of_the_description(tmp_path):
    """A store that names its layer rightly isn't told that it doesn't."""
    good, _ = of_names(500, 1)
    store = packed_store(tmp_path / "a.mbtiles", [good])
    said = {"vector_layers": [{"id": "n" * 500, "fields": {"000" + "k" * 500: "Number"}}]}
    with closing(sqlite3.connect(store)) as database, database:
        database.execute("insert into metadata values ('json', ?)", (json.dumps(said),))
    status, out, error = audit(store, "--into", tmp_path / "audit")
    assert (status, error) == (0, "") and "metadata: " not in out


def steps_to_add(results, number):
    """What it takes SQLite to take in 500 refused tiles, each with a layer of its own name."""
    standing = field(2, field(3, 2) + field(4, packed([9, 4, 4, 10, 0, 0])))
    layers = [field(15, 2) + field(1, b"%d" % (500 * number + at)) + standing for at in range(500)]
    tiles = {Address(9, at, number): field(3, layer) for at, layer in enumerate(layers)}
    steps = []
    results.database.set_progress_handler(lambda: steps.append(1) and None, 100)
    results.add([Block("/store", number, judging.judged_part(Tiles(tiles), None))])
    return len(steps)


class Tiles(Tree):
    """Some tiles as a store."""

    def __init__(self, tiles):
        super().__init__("/store")
        self.tiles = lambda part: iter(tiles.items())


def test_a_name_more_costs_the_same_whatever_names_there_are(tmp_path):
    with closing(Results(tmp_path)) as results:
        costs = [steps_to_add(results, number) for number in range(20)]
        assert rows(tmp_path, "select count(distinct layer_name) from counts") == [(10_000,)]
    assert costs[-1] < 3 * costs[0]


def limit(store, tiles):
    return str(resource.getrlimit(resource.RLIMIT_DATA)[0]).encode()


def test_workers_share_half_of_the_memory():
    half = os.sysconf("SC_PAGE_SIZE") * os.sysconf("SC_PHYS_PAGES") // 2
    for count in (1, 3):
        workers = Processes(count, limit)
        try:
            workers.hand(Task(Tree("/"), 0, None))
            [found] = workers.finished()
        finally:
            workers.close()
        assert int(found.content) == min(half, max(half // count, bounds.MEMORY))


def bounded(store, tile):
    """What is said of a tile by a worker with so much memory."""
    resource.setrlimit(resource.RLIMIT_DATA, (600 << 20, resource.getrlimit(resource.RLIMIT_DATA)[1]))
    judge = judging.Judge(True)
    said = judge(tile)
    return repr((said.verdict, said.bytes, said.notes, said.findings, judge.measured)).encode()


def test_a_tile_that_wants_2_GB_to_be_linted_is_judged_with_600_MB():
    """One of empty features."""
    head = field(15, 2) + field(1, b"a")
    features = b"\x12\0" * ((60 << 20) // 2)
    tile = b"\x1a" + varint(len(head) + len(features)) + head + features
    workers = Processes(1, bounded)
    try:
        workers.hand(Task(Tree("/"), 0, gzip.compress(tile, 1)))
        [found] = workers.finished()
    finally:
        workers.close()
    told = "what else is to be said of it takes too much memory"
    assert found.content.decode() == repr(("accepted", len(tile), told, None, [])), found.why


def test_a_memory_that_is_less_already_stays():
    before = resource.getrlimit(resource.RLIMIT_DATA)
    try:
        resource.setrlimit(resource.RLIMIT_DATA, (bounds.MEMORY // 2, before[1]))
        bound_memory(3)
        assert resource.getrlimit(resource.RLIMIT_DATA)[0] == bounds.MEMORY // 2
    finally:
        resource.setrlimit(resource.RLIMIT_DATA, before)


def test_a_finding_of_a_large_tile_is_told_with_less_than_500_MB_of_the_client(tmp_path):
    large = EVIDENCE["large-id"]
    tile = large + field(3, field(15, 2) + field(1, b"more") + b"\x12\0" * (10 << 20))
    store = packed_store(tmp_path / "a.mbtiles", [tile])
    found = Watched(store, "--into", tmp_path / "audit", workers=1)
    assert found.status == 0 and found.client < 500 * MB
