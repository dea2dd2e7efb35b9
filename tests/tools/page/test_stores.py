"""Stores by the server: their lists, broken tiles, and tiles by place, held against `mvt-audit`'s own ranges."""

import gzip
import json
import os
import socket
import sqlite3
import subprocess
import tempfile
import threading
import time
import unittest
from contextlib import closing
from pathlib import Path
from urllib.parse import quote

import make_stores  # which finds what the tests of mvt-audit share
from archives import archive, directory, entries_of, tile_id
from common import at_places, example_tiles, make_mbtiles, make_tree, packings
from mvt_tools import stores
from mvt_tools.audit.judging import judged
from mvt_tools.stores import StoreError, tile_ids
from serving import COMMAND, TILES, Serving
from test_server import Server, drip, sent


GDAL = (TILES / "gdal.mvt").read_bytes()
BROKEN = (TILES / "broken" / "22-FirstRing.mvt").read_bytes()


def given(serving):
    """What the command was given; what notes and findings mean is beside it."""
    all_told = told(serving, "given")
    meanings = all_told.pop("meanings")
    assert meanings["notes"]["NoFeatures"] == "A layer has no feature." and meanings["findings"]["LargeId"].startswith(
        "An id is beyond"
    )
    return all_told


def told(serving, path):
    status, _, body = serving.ask("GET", path)
    assert status == 200, (path, status, body)
    return json.loads(body)


def listed(serving, number, count=7, only="", first=""):
    """All tiles of a store, by pages; or those behind a key, which is told as words of a query."""
    rows, query = [], first
    while True:
        page = told(serving, f"stores/{number}/tiles?count={count}&only={only}{query}")
        assert len(page["tiles"]) <= count
        rows += page["tiles"]
        if page["next"] is None:
            return rows
        query = f"&after={quote(page['next'])}"


def place_of(row):
    return row["z"], row["x"], row["y"]


def places_of(address):
    """The places of a run of equal tiles, which is one row of an audit; or the name of what has no place."""
    if address.z is None:
        return [str(address)]
    first = tile_id(*address[:3])
    return ["%d/%d/%d" % tile_ids.place_of(first + number) for number in range(address.tiles)]


def whole(zoom):
    """All places of the zooms up to one."""
    return [(z, x, y) for z in range(zoom + 1) for x in range(1 << z) for y in range(1 << z)]


class Case(unittest.TestCase):
    """A test with a folder of its own, and with servers of tiles."""

    def setUp(self):
        held = tempfile.TemporaryDirectory()
        self.addCleanup(held.cleanup)
        self.room = Path(held.name)

    def made(self, content, name="a.pmtiles"):
        """A file."""
        (self.room / name).write_bytes(content)
        return self.room / name

    def answering(self, answer):
        """A server of tiles, that answers by a function of z, x and y: bytes, None, or what `Server` takes."""

        def told(path):
            found = answer(*map(int, path[1:].split("/")))
            return (404, {}, b"") if found is None else (200, {}, found) if isinstance(found, bytes) else found

        server = Server(told)
        self.addCleanup(server.server_close)
        self.addCleanup(server.shutdown)
        server.tiles = server.address + "/{z}/{x}/{y}"
        return server


class Stores(Case):
    def kinds(self, tiles):
        """The same tiles in a store of each kind that is a file."""
        found = {kind: make_mbtiles(self.room / f"{kind}.mbtiles", tiles, kind) for kind in ("table", "keys", "view")}
        bare = make_mbtiles(self.room / "bare.mbtiles", {})
        with sqlite3.connect(bare) as database:
            database.execute("drop table tiles")
            database.execute(
                "create table tiles (zoom_level integer, tile_column integer, tile_row integer, tile_data blob)"
            )
            rows = [(z, x, (1 << z) - 1 - y, tile) for (z, x, y), tile in tiles.items()]
            database.executemany("insert into tiles values (?, ?, ?, ?)", rows)
        database.close()
        found["bare"] = bare
        found["tree"] = make_tree(self.room / "tree", tiles)
        found["list"] = self.room / "list.txt"
        found["list"].write_text("".join(f"tree/{z}/{x}/{y}.mvt\r\n\n" for z, x, y in tiles))
        if all(tiles.values()):  # an archive has no tiles without bytes
            found["archive"] = self.made(archive(tiles, leaf=9, internal=2))
        return found

    def test_each_kind_has_each_tile_once(self):
        tiles = {**at_places([GDAL, BROKEN, gzip.compress(GDAL), b"", gzip.compress(BROKEN)] * 20), (0, 0, 0): GDAL}
        for kind, path in self.kinds(tiles).items():
            with Serving(path) as serving:
                rows = listed(serving, 0)
                self.assertEqual(len(rows), 101, kind)
                self.assertEqual(
                    {(row["z"], row["x"], row["y"]): row["size"] for row in rows},
                    {place: len(tile) for place, tile in tiles.items()},
                    kind,
                )
                if kind in ("table", "keys", "view", "tree"):
                    self.assertEqual([row["z"] for row in rows], sorted(row["z"] for row in rows))
                for row in rows[::9]:
                    place = (row["z"], row["x"], row["y"])
                    wanted = (200, tiles[place])
                    self.assertEqual(serving.ask("GET", "stores/0/%d/%d/%d" % place)[::2], wanted, kind)
                    self.assertEqual(serving.ask("GET", f"stores/0/tile?key={quote(row['key'])}")[::2], wanted, kind)

    def test_rows_are_those_of_an_audit(self):
        """Whatever the packing; and a page of the list says what a search says."""
        tiles = at_places(
            [stored for tile in example_tiles().values() if len(tile) < 1 << 20 for stored in packings(tile).values()]
        )
        tiles.update({(9, 1, 1): gzip.compress(GDAL)[:-9], (9, 1, 2): bytes([0x78, 0x01]), (9, 1, 3): b"\x1f\x8b"})
        path = make_mbtiles(self.room / "a.mbtiles", tiles)
        store = stores.opened(str(path))
        store.state()
        audited = {}
        for part in store.ranges(1000):
            audited.update(
                {
                    (row.z, row.x, row.y): row
                    for row in (judged(address, content) for address, content in store.tiles(part))
                }
            )
        broken = {place for place, row in audited.items() if row.verdict not in ("accepted", "empty")}
        with Serving(path) as serving:
            for row in listed(serving, 0, 50):
                wanted = audited[row["z"], row["x"], row["y"]]._asdict()
                self.assertEqual({name: row[name] for name in wanted}, wanted)
            found = listed(serving, 0, 50, "broken")
            self.assertEqual({(row["z"], row["x"], row["y"]) for row in found}, broken)
            for cause in {row.cause for row in audited.values()} - {None}:
                wanted = {place for place, row in audited.items() if row.cause == cause}
                self.assertEqual(
                    {(row["z"], row["x"], row["y"]) for row in listed(serving, 0, 50, cause)}, wanted, cause
                )

    def test_500_tiles_are_told_the_same_of_each_kind(self):
        """The list, the broken ones and those of a cause, but for their order; and each kind has its own."""
        kinds = [
            GDAL,
            gzip.compress(GDAL),
            BROKEN,
            gzip.compress(BROKEN),
            gzip.compress(b""),
            gzip.compress(GDAL)[:-9],
            (TILES / "broken" / "14-KeyIndex.mvt").read_bytes(),
        ]
        tiles = {place: kinds[number * number % 11 % 7] for number, place in enumerate(whole(5)[300:800])}
        server = self.answering(lambda *place: tiles.get(place))
        words = {
            "folder": [make_tree(self.room / "tree", tiles)],
            "MBTiles": [make_mbtiles(self.room / "a.mbtiles", tiles)],
            "PMTiles": [self.made(archive(tiles, leaf=40, internal=2))],
            "server": [server.tiles, "--zooms", "4-5"],
        }
        orders = {
            "folder": None,
            "MBTiles": lambda place: (*place[:2], -place[2]),
            "PMTiles": lambda place: tile_id(*place),
            "server": None,
        }
        wanted = None
        for kind, which in words.items():
            with Serving(*which) as serving:
                self.assertEqual([store["kind"] for store in told(serving, "given")["stores"]], [kind])
                lists = [
                    listed(serving, 0, count, only) for count, only in ((130, ""), (60, "broken"), (60, 22), (60, 14))
                ]
            found = [[{**row, "key": None, "name": None} for row in sorted(rows, key=place_of)] for rows in lists]
            self.assertEqual([len(found[0]), len(found[1]) > 100], [500, True], kind)
            self.assertEqual(found, wanted or found, kind)
            wanted = found
            for rows in lists:
                places = [place_of(row) for row in rows]
                self.assertEqual(places, sorted(places, key=orders[kind]), kind)

    def test_places_of_a_zoom(self):
        """Of each kind those that the list has, and whether the tile is broken; a question goes on where one ended."""
        tiles = {place: BROKEN if number % 7 == 0 else GDAL for number, place in enumerate(whole(3))}
        for kind, path in self.kinds(tiles).items():
            with Serving(path) as serving:
                for z in (0, 2, 3, 4):
                    page = told(serving, f"stores/0/zoom?z={z}")
                    self.assertEqual(page["next"], None)
                    wanted = sorted([x, y, tile == BROKEN] for (zoom, x, y), tile in tiles.items() if zoom == z)
                    self.assertEqual(sorted(page["tiles"]), wanted, (kind, z))
                rows = listed(serving, 0)
                key = quote(rows[-1]["key"])
                last = [[row["x"], row["y"], row["verdict"] == "refused"] for row in rows[-1:] if row["z"] == 3]
                self.assertEqual(told(serving, f"stores/0/zoom?z=3&from={key}")["tiles"], last, kind)
                for query, status in (
                    ("z=31", 404),
                    ("", 404),
                    ("z=x", 404),
                    ("z=3&from=x", 400),
                    ('z=3&from=["../../x"]', 400),
                ):
                    self.assertEqual(serving.ask("GET", f"stores/0/zoom?{query}")[0], status, (kind, query))

    def test_a_zoom_that_takes_long_goes_on(self):
        tiles = at_places([gzip.compress(GDAL)] * 60, z=9)
        delayed = self.answering(lambda *place: tiles.get(place))
        path = make_mbtiles(self.room / "a.mbtiles", at_places([bytes(2 * number) for number in range(1, 9000)], z=9))
        for words in ([path], [delayed.tiles, "--zooms", "9", "--bounds", "-180,80,-160,85"]):
            with Serving(*words) as serving:
                found, query = [], ""
                while query is not None:
                    page = told(serving, f"stores/0/zoom?z=9{query}")
                    found += page["tiles"]
                    query = None if page["next"] is None else f"&from={quote(page['next'])}"
                self.assertEqual(len(found), len(set(map(tuple, found))))
                self.assertTrue(found)

    def test_a_folder_of_archives_is_all_of_them(self):
        make_mbtiles(self.room / "b.mbtiles", {(0, 0, 0): GDAL})
        make_mbtiles(self.room / "a.mbtiles", {(0, 0, 0): GDAL})
        (self.room / "c.pmtiles").write_bytes(b"PMTiles")
        (self.room / "d.txt").write_text("no store")
        with Serving(self.room) as serving:
            given = told(serving, "given")
            self.assertEqual([store["name"] for store in given["stores"]], ["a.mbtiles", "b.mbtiles"])
            self.assertEqual(given["stores"][0]["size"], (self.room / "a.mbtiles").stat().st_size)
            self.assertEqual(len(listed(serving, 1)), 1)

    def test_where_a_list_begins(self):
        tiles = at_places([GDAL] * 10)
        with Serving(make_mbtiles(self.room / "a.mbtiles", tiles)) as serving:
            rows = listed(serving, 0)
            keys = [row["key"] for row in rows]
            third = rows[3]
            place = f"{third['z']}/{third['x']}/{third['y']}"
            for query, wanted in [
                (f"from={quote(keys[3])}", keys[3:]),
                (f"after={quote(keys[3])}", keys[4:]),
                (f"at={place}", keys[3:]),
                (f"past={place}", keys[4:]),
            ]:
                self.assertEqual(
                    [row["key"] for row in told(serving, f"stores/0/tiles?{query}")["tiles"]], wanted, query
                )

    def test_what_is_no_place_and_no_key(self):
        kinds = self.kinds({(1, 0, 0): GDAL, (1, 1, 0): BROKEN})
        secret = self.room / "secret.mvt"
        secret.write_bytes(GDAL)
        with Serving(*kinds.values()) as serving:
            for number in range(len(kinds)):
                for path in (
                    "2/0/0",
                    "1/0/1",
                    "1/2/0",
                    "1/0/2",
                    "31/0/0",
                    "1/0",
                    "1/0/0/0",
                    "01/0/0",
                    "-1/0/0",
                    "1/0/0.mvt",
                    "../../secret.mvt",
                    "9999999999/0/0",
                    "nothing",
                ):
                    self.assertEqual(serving.ask("GET", f"stores/{number}/{path}")[0], 404, path)
                for key in (
                    "",
                    "x",
                    "{}",
                    "null",
                    "[]",
                    "[1.5]",
                    "[null]",
                    "[true]",
                    "[[1]]",
                    "[-1]",
                    "[1,2]",
                    "[1,2,3,4,5]",
                    "[1e3]",
                    '["../../secret.mvt"]',
                    "[99999999999999999999]",
                    "[1,0,0,9]",
                    "[1,0,0,-1]",
                    '["1","0","0","0"]',
                    "[" + "1," * 2000 + "1]",
                ):
                    self.assertIn(serving.ask("GET", f"stores/{number}/tile?key={quote(key)}")[0], (400, 404), key)
                    self.assertIn(
                        serving.ask("GET", f"stores/{number}/tiles?after={quote(key)}")[0], (200, 400, 404), key
                    )
                self.assertEqual(serving.ask("GET", f"stores/{number}/tiles?only=x")[0], 404)
            self.assertEqual(serving.ask("GET", f"stores/{len(kinds)}/tiles")[0], 404)

    def test_a_tile_beyond_the_world_is_opened_by_its_place(self):
        """As GDAL writes such: column 1 of zoom 0. A store that has none there says so, and opens no other tile."""
        tiles = {(0, 0, 0): GDAL, (0, 1, 0): BROKEN, (1, 2, 0): GDAL}
        for kind, path in self.kinds(tiles).items():
            if kind == "archive":
                continue  # there are no ids for them
            with Serving(path, "0/1/0") as serving:
                self.assertEqual(told(serving, "given")["first"], {"store": 0, "place": "0/1/0"}, kind)
                self.assertEqual(serving.ask("GET", "stores/0/0/1/0")[::2], (200, BROKEN), kind)
                [row, *_] = told(serving, "stores/0/tiles?at=0/1/0")["tiles"]
                self.assertEqual((row["verdict"], row["cause"]), ("refused", 22), kind)
                self.assertEqual(serving.ask("GET", "stores/0/0/0/1")[0], 404, kind)
        server = self.answering(lambda *place: GDAL)
        with Serving(self.made(archive({(0, 0, 0): GDAL}))) as archived, Serving(
            server.tiles, "--zooms", "0-1"
        ) as served:
            for serving in (archived, served):
                for path in ("0/1/0", "0/0/1", "1/2/0", "30/9999999999/0"):
                    self.assertEqual(serving.ask("GET", f"stores/0/{path}")[0], 404, path)
            self.assertEqual(server.asked, [])

    def test_a_part_of_a_name_in_a_list_is_no_name(self):
        (self.room / "list.txt").write_text(f"a{self.room}/secret.mvt\n")
        (self.room / "secret.mvt").write_bytes(GDAL)
        with Serving(self.room / "list.txt") as serving:
            self.assertEqual(serving.ask("GET", f"stores/0/tile?key={quote('[1]')}")[0], 400)
            self.assertEqual(serving.ask("GET", f"stores/0/tile?key={quote('[0]')}")[0], 404)

    def test_rows_without_a_place_and_files_that_are_gone(self):
        path = make_mbtiles(self.room / "a.mbtiles", {(1, 0, 0): None, (1, 1, 0): "text"})
        with sqlite3.connect(path) as database:
            database.execute("insert into tiles values ('x', 1, 2, x'00')")
        database.close()
        (self.room / "list.txt").write_text("gone.mvt\n")
        with Serving(path, self.room / "list.txt") as serving:
            rows = {row["name"] or f"{row['z']}/{row['x']}/{row['y']}": row for row in listed(serving, 0)}
            self.assertEqual(
                {name: row["verdict"] for name, row in rows.items()},
                {"1/0/0": "empty", "1/1/0": "refused", "x/1/2": "refused"},
            )
            self.assertEqual(serving.ask("GET", f"stores/0/tile?key={quote(rows['x/1/2']['key'])}")[::2], (200, b"\0"))
            [row] = listed(serving, 1)
            self.assertEqual(
                (row["name"], row["verdict"], row["notes"]), ("gone.mvt", "unread", "No such file or directory")
            )

    def test_odd_rows_are_listed_opened_and_hide_nothing(self):
        """Whatever stands in their places, one tile to a page of the list; and a broken tile behind them is found."""
        odd = [None, 1.5, float("inf"), b"\0\xff", "x" * 1500, "", "[", -1]
        rows = [(zoom, 0, 0, GDAL + bytes([0x28, number])) for number, zoom in enumerate(odd)] + [
            (63, 0, -(2**63), GDAL),
            (1, None, "y", GDAL),
            (30, 0, 0, BROKEN),
            (30, 1, 0, GDAL),
        ]
        for kind, index in [
            ("bare", ""),
            ("indexed", "create unique index places on tiles (zoom_level, tile_column, tile_row)"),
            ("view", ""),
        ]:
            path = self.room / f"{kind}.mbtiles"
            with closing(sqlite3.connect(path)) as database, database:
                database.execute(
                    f"create table {'held' if kind == 'view' else 'tiles'} (zoom_level, tile_column, tile_row, tile_data)"
                )
                database.executemany(f"insert into {'held' if kind == 'view' else 'tiles'} values (?, ?, ?, ?)", rows)
                database.execute("create view tiles as select * from held" if kind == "view" else index or "select 1")
            with Serving(path) as serving:
                found = listed(serving, 0, 1)
                self.assertEqual(len(found), len(rows), kind)
                held = [serving.ask("GET", f"stores/0/tile?key={quote(row['key'])}")[::2] for row in found]
                self.assertEqual(sorted(held), sorted((200, tile) for *_, tile in rows), kind)
                [broken] = listed(serving, 0, 1, "broken")
                self.assertEqual((broken["z"], broken["x"], broken["cause"]), (30, 0, 22), kind)
                self.assertEqual(serving.end()[2], "", kind)

    def test_a_damaged_page_leaves_the_other_tiles(self):
        tiles = at_places([b"%04d" % number * 200 for number in range(500)])
        path = make_mbtiles(self.room / "a.mbtiles", tiles)
        content = bytearray(path.read_bytes())
        at = content.index(b"0250" * 200) // 4096 * 4096
        content[at : at + 4096] = bytes(4096)
        path.write_bytes(content)
        with Serving(path) as serving:
            rows = listed(serving, 0, 100)
        unread = [row for row in rows if row["verdict"] == "unread"]
        self.assertEqual({(row["z"], row["x"], row["y"]) for row in rows}, set(tiles))
        self.assertTrue(0 < len(unread) <= 20, len(unread))

    def test_words_of_the_command(self):
        path = make_mbtiles(self.room / "a.mbtiles", {(5, 17, 11): GDAL})
        stored = {"name": "a.mbtiles", "kind": "MBTiles", "size": path.stat().st_size}
        with Serving(path, "5/17/11", TILES / "gdal.mvt", self.room / "a.mbtiles") as serving:
            self.assertEqual(
                given(serving),
                {
                    "files": ["gdal.mvt"],
                    "stores": [stored] * 2,
                    "first": {"store": 0, "place": "5/17/11"},
                },
            )
        for words, why in [
            ((path, "5/17/12"), "it has no tile 5/17/12"),
            ((path, "5/17"), "No such file"),
            (("5/17/11", path), "No such file"),
            ((self.room / "folder",), "no tiles"),
        ]:
            (self.room / "folder").mkdir(exist_ok=True)
            run = subprocess.run(
                [*COMMAND, "--no-browser", *map(str, words)], capture_output=True, text=True, timeout=60
            )
            self.assertEqual((run.returncode, run.stdout), (3, ""), run.stderr)
            self.assertRegex(run.stderr, f"^mvt-page: .*{why}.*\n$")


class Archives(Case):
    def test_a_run_of_equal_tiles_is_told_for_each_place(self):
        tiles = {place: GDAL if place[0] < 5 else gzip.compress(GDAL) for place in whole(5)}
        places = sorted(tiles, key=lambda place: tile_id(*place))
        with Serving(self.made(archive(tiles))) as serving:
            rows = listed(serving, 0, 500)
            self.assertEqual([place_of(row) for row in rows], places)
            at = 1200
            for query, wanted in [
                (f"from={quote(rows[at]['key'])}", at),
                (f"after={quote(rows[at]['key'])}", at + 1),
                ("at=%d/%d/%d" % places[at], at),
            ]:
                page = told(serving, f"stores/0/tiles?count=3&{query}")
                self.assertEqual([place_of(row) for row in page["tiles"]], places[wanted : wanted + 3])
            self.assertEqual(serving.ask("GET", "stores/0/%d/%d/%d" % places[at])[2], tiles[places[at]])
            self.assertEqual(listed(serving, 0, 500, "broken"), [])

    def test_a_large_archive_goes_on_from_any_key_at_once(self):
        """Memory doesn't grow with the archive, and the directories before a key aren't read."""
        places = [place for place in whole(9) if place[0] > 6]
        path = self.made(archive({place: b"%d %d %d" % place for place in places}, leaf=1000, internal=2))
        order = sorted(places, key=lambda place: tile_id(*place))
        with Serving(path) as serving:
            before = serving.memory("VmHWM")
            for at in (0, 100_000, len(order) - 10):
                page = told(serving, "stores/0/tiles?count=5&at=%d/%d/%d" % order[at])
                self.assertEqual([place_of(row) for row in page["tiles"]], order[at : at + 5])
            self.assertLess(serving.memory("VmHWM") - before, 30)

    def test_what_is_wrong_stands_in_its_place(self):
        """A leaf that is damaged: the tiles before and behind it, and why those in it can't be read."""
        tiles = {place: GDAL + bytes([0x28, number]) for number, place in enumerate(whole(3))}  # and an unknown field
        content = bytearray(archive(tiles, leaf=20))
        leaves = int.from_bytes(content[40:48], "little")
        entries = sorted(tile_id(*place) for place in tiles)
        content[leaves + len(directory(entries_of(tiles)[0][:20]))] ^= 0x7F
        damaged = set(entries[20:40])
        with Serving(self.made(bytes(content))) as serving:
            rows = listed(serving, 0, 10)
            told_of = [row["name"] or tile_id(*place_of(row)) for row in rows]
            [name] = [name for name in told_of if isinstance(name, str)]
            self.assertRegex(name, "^directory at \\d+$")
            at = told_of.index(name)
            self.assertEqual((told_of[:at], told_of[at + 1 :]), (entries[:20], entries[40:]))
            self.assertEqual((rows[at]["verdict"], rows[at]["z"]), ("unread", None))
            [found] = listed(serving, 0, 10, "broken")
            self.assertEqual(found, rows[at])
            for path in (
                f"tile?key={quote(found['key'])}",
                "%d/%d/%d" % next(place for place in tiles if tile_id(*place) in damaged),
            ):
                status, _, body = serving.ask("GET", f"stores/0/{path}")
                self.assertEqual((status, found["notes"] in body.decode()), (502, True), body)
            self.assertEqual(serving.ask("GET", "stores/0/9/1/1")[0], 404)

    def test_what_a_store_says_is_what_an_audit_says(self):
        """Of leaves that lead astray, of tiles whose bytes aren't there, and of tiles that don't unpack."""
        leaf = directory([(5, 1, 0, 6), (9, 1, 0, 6)])
        for entries, leaves in [
            ([(0, 1, 0, 4), (5, 0, 0, len(leaf)), (8, 1, 0, 4)], leaf),
            ([(4, 0, 0, len(leaf))], leaf),
            ([(1, 1, 0, 4), (5, 0, 0, 60), (20, 1, 0, 4)], leaf),
            ([(5, 0, 0, 5), (21, 2, 2, 4)], directory([(5, 0, 0, 5)])),
            ([(0, 1, 98, 4), (1, 3, 0, 4)], b""),
            ([(0, 1, 0, 4), (1, 5, 0, 4), (3, 1, 4, 4)], b""),
        ]:
            store = stores.opened(str(self.made(make_stores.archive_of(entries, leaves))))
            store.state()
            audited = [each for part in store.ranges(50) for each in store.tiles(part)]
            found = list(store.since(None))
            keys = [key for key, *_ in found]
            self.assertEqual(keys, sorted(set(keys)))
            self.assertEqual(
                sorted((str(address), str(content)) for _, address, content in found),
                sorted((place, str(content)) for address, content in audited for place in places_of(address)),
            )
            for number, (key, address, content) in enumerate(found):
                self.assertEqual([each for each, *_ in store.since(key)], keys[number:])
                self.assertEqual([each for each, *_ in store.after(key)], keys[number + 1 :])
                if isinstance(content, bytes):
                    self.assertEqual((store.held(key), store.find(*address[:3])), (content, key))
                else:
                    self.assertRaises(OSError, store.held, key)

    def test_each_byte_changed_and_each_cut(self):
        """Keys go up, and nothing but plain errors comes."""
        good = archive({place: b"tile %d" % number for number, place in enumerate(whole(2))}, leaf=4, internal=1)
        end = int.from_bytes(good[56:64], "little")
        versions = [
            good[:at] + bytes([put]) + good[at + 1 :] for at in range(end) for put in (0, 1, 0x7F, 0xFF, good[at] ^ 1)
        ]
        tried = 0
        for content in [*versions, *(good[:cut] for cut in range(len(good)))]:
            store = stores.found(str(self.made(content)))
            try:
                store.check()
                found = [key for number, (key, *_) in zip(range(200), store.since(None))]
                self.assertEqual(found, sorted(set(found)))
                store.find(2, 1, 3)
            except (StoreError, OSError):
                pass
            tried += 1
        self.assertGreater(tried, 1500)

    def test_archives_that_are_none(self):
        good = archive({place: GDAL for place in whole(2)}, leaf=4, internal=2)
        for content, why in [
            (b"", "cut off: the header has 127 bytes"),
            (good[:-1], "the tiles end at"),
            (good[:7] + b"\2" + good[8:], "version 3 is read"),
            (good[:99] + b"\2" + good[100:], "the type PNG"),
            (archive({}), "no tiles in this archive"),
        ]:
            run = subprocess.run(
                [*COMMAND, "--no-browser", str(self.made(content))], capture_output=True, text=True, timeout=60
            )
            self.assertEqual((run.returncode, run.stdout), (3, ""))
            self.assertRegex(run.stderr, f"^mvt-page: .*{why}.*\n$")


class Servers(Case):
    def test_only_what_is_asked_for_is_asked(self):
        """By zooms and bounds, each when the list comes there; and a place that is opened costs one request."""
        server = self.answering(lambda z, x, y: GDAL if (x + y) % 2 == 0 else None)
        asked = lambda: [path for path, _ in server.asked]
        with Serving(
            server.tiles, "--bounds", "-180,-85,0,85", "3/2/4", "--zooms", "2-3", "--requests", "3"
        ) as serving:
            stored = {"name": server.tiles, "kind": "server", "size": None}
            self.assertEqual(given(serving), {"files": [], "stores": [stored], "first": {"store": 0, "place": "3/2/4"}})
            self.assertEqual(asked(), [])
            self.assertEqual(serving.ask("GET", "stores/0/3/2/4")[::2], (200, GDAL))
            self.assertEqual(serving.ask("GET", "stores/0/3/2/5")[0], 404)
            self.assertEqual(asked(), ["/3/2/4", "/3/2/5"])
            for outside in ("3/6/4", "4/0/0", "1/0/0"):
                self.assertEqual(serving.ask("GET", f"stores/0/{outside}")[0], 404)
            self.assertEqual(len(asked()), 2)
            page = told(serving, "stores/0/tiles?count=4")
            self.assertLessEqual(len(asked()), 2 + 4 * 2 + 4)
            rows = page["tiles"] + listed(serving, 0, first=f"&after={quote(page['next'])}")
            wanted = [(z, x, y) for z, x, y in whole(3) if z > 1 and x < 1 << z >> 1 and (x + y) % 2 == 0]
            self.assertEqual([place_of(row) for row in rows], wanted)
            self.assertLessEqual(server.most, 3)

    def test_what_a_server_answers_wrongly_is_told_at_its_place(self):
        answers = {
            0: (200, {}, GDAL),
            1: (503, {}, b"later"),
            3: sent(b""),
            4: sent(b"HTTP/1.1 200 OK\r\nContent-Length: 20\r\n\r\nten bytes.."),
            5: (204, {}, b""),
            6: (200, {"Content-Encoding": "gzip"}, gzip.compress(GDAL)[:-9]),
            7: (200, {"Content-Encoding": "br"}, b"x"),
            8: (301, {"Location": "/"}, b""),
            9: (200, {}, BROKEN),
        }
        server = self.answering(lambda z, x, y: answers.get(4 * x + y) if z == 2 else None)
        wanted = {
            0: ("accepted", ""),
            1: ("unread", "503 Service Unavailable"),
            3: ("unread", "the server ended the connection and answered nothing"),
            4: ("unread", "the body ends early: 11 of 20 bytes came"),
            6: ("not unpacked", "cut off"),
            7: ("unread", "it answers in the encoding br"),
            8: ("unread", "301 Moved Permanently"),
            9: ("refused", ""),
        }
        with Serving(server.tiles, "--zooms", "1-2", "--timeout", "60") as serving:
            rows = {4 * row["x"] + row["y"]: (row["verdict"], row["notes"]) for row in listed(serving, 0, 5)}
            self.assertEqual(rows, wanted)
            found = [4 * row["x"] + row["y"] for row in listed(serving, 0, 1, "broken")]
            self.assertEqual(
                found, [number for number, (verdict, _) in sorted(wanted.items()) if verdict != "accepted"]
            )
            for number, (verdict, notes) in wanted.items():
                status, _, body = serving.ask("GET", "stores/0/2/%d/%d" % divmod(number, 4))
                self.assertEqual(
                    (status, body.decode().strip() if status == 502 else ""),
                    (502, notes) if verdict == "unread" else (200, ""),
                    number,
                )
            self.assertEqual(serving.ask("GET", "stores/0/2/1/1")[0], 404)

    def test_an_answer_that_takes_too_long_is_told_at_its_place(self):
        server = self.answering(lambda z, x, y: drip)
        with Serving(server.tiles, "--zooms", "0", "--timeout", "1") as serving:
            for only in ("", "broken"):
                [row] = listed(serving, 0, 1, only)
                self.assertEqual((row["verdict"], row["notes"]), ("unread", "no whole answer within 1 seconds"))
            status, _, body = serving.ask("GET", "stores/0/0/0/0")
            self.assertEqual((status, body), (502, b"no whole answer within 1 seconds\n"))

    def test_a_server_that_does_not_answer_keeps_nobody_waiting(self):
        """Not those who ask for something else, not the server when a question is given up, and not who ends the command."""
        over = threading.Event()
        server = self.answering(lambda z, x, y: lambda _: over.wait(600))
        self.addCleanup(over.set)
        with Serving(server.tiles, "--zooms", "0-3", "--timeout", "600") as serving:
            for path in [
                "stores/0/tiles",
                "stores/0/tiles?only=broken&count=1",
                *("stores/0/1/%d/%d" % divmod(number, 2) for number in range(4)),
            ] * 2:
                connection = socket.create_connection(("127.0.0.1", serving.port))
                self.addCleanup(connection.close)
                connection.sendall(
                    f"GET {serving.path}{path} HTTP/1.1\r\nHost: 127.0.0.1:{serving.port}\r\n\r\n".encode()
                )
            while server.now < 8:
                time.sleep(0.05)
            serving.call("judge", GDAL)
            self.assertEqual(serving.end()[0], 0)

    def test_a_list_that_is_given_up_asks_no_further(self):
        server = self.answering(lambda z, x, y: lambda _: time.sleep(0.5))
        with Serving(server.tiles, "--zooms", "0-6") as serving:
            with socket.create_connection(("127.0.0.1", serving.port)) as connection:
                connection.sendall(
                    f"GET {serving.path}stores/0/tiles?only=22 HTTP/1.1\r\nHost: 127.0.0.1:{serving.port}\r\n\r\n".encode()
                )
                while len(server.asked) < 8:
                    time.sleep(0.05)
            asked = -1
            while asked != len(server.asked):  # in all it would ask 5,461 times, for minutes
                asked = len(server.asked)
                time.sleep(3)
            self.assertLess(asked, 500)

    def test_a_slow_server_is_told_of_while_it_answers(self):
        """A page of a list has what came in a second, and a tile that takes longer is asked for once more and no oftener."""
        server = self.answering(lambda z, x, y: (time.sleep(0.4 if y else 2.5), (200, {}, GDAL))[1])
        with Serving(server.tiles, "--zooms", "2", "--requests", "2") as serving:
            rows, query, pages = [], "", 0
            while query is not None:
                page = told(serving, f"stores/0/tiles?{query}")
                pages += 1
                rows += page["tiles"]
                query = page["next"] and f"after={quote(page['next'])}"
            self.assertEqual([place_of(row) for row in rows], [place for place in whole(2) if place[0] == 2])
            self.assertGreater(pages, 2)

    def test_a_server_that_is_not_there(self):
        with socket.create_server(("127.0.0.1", 0)) as held:
            address = f"http://127.0.0.1:{held.getsockname()[1]}/{{z}}/{{x}}/{{y}}"
        with Serving(address, "--zooms", "0-1") as serving:
            self.assertEqual(
                {(row["verdict"], row["notes"]) for row in listed(serving, 0)}, {("unread", "Connection refused")}
            )
            self.assertEqual(serving.ask("GET", "stores/0/1/1/0")[::2], (502, b"Connection refused\n"))

    def test_keys_that_are_none(self):
        server = self.answering(lambda *place: GDAL)
        with Serving(server.tiles, "--zooms", "1") as serving:
            for key, status in [
                ("[1,0,0]", 200),
                ("[2,0,0]", 404),
                ("[1,2,0]", 400),
                ("[1,0,-1]", 400),
                ("[31,0,0]", 400),
                ("[1,0]", 400),
                ('["1",0,0]', 400),
                ('["../x",0,0]', 400),
            ]:
                self.assertEqual(serving.ask("GET", f"stores/0/tile?key={quote(key)}")[0], status, key)
            self.assertEqual([path for path, _ in server.asked], ["/1/0/0"])

    def test_words_of_the_command(self):
        said = {"tiles": ["{z}/{x}/{y}"], "minzoom": 1, "maxzoom": 1, "bounds": [-180, 0, 0, 85]}
        server = Server(lambda path: (200, {}, json.dumps(said).encode() if path == "/tiles.json" else GDAL))
        self.addCleanup(server.server_close)
        self.addCleanup(server.shutdown)
        with Serving(server.address + "/tiles.json", "1/0/0") as serving:
            self.assertEqual([place_of(row) for row in listed(serving, 0)], [(1, 0, 0)])
        tree = make_tree(self.room / "tree", {(0, 0, 0): GDAL})
        tiles = server.address + "/{z}/{x}/{y}"
        for words, status, why in [
            ([tiles], 3, "which zooms. say --zooms 0-14"),
            ([tiles, "5/1/1", "--zooms", "0-3"], 3, "it has no tile 5/1/1"),
            ([server.address + "/{z}/{x}"], 3, "an address of tiles has"),
            ([server.address + "/nothing.json"], 3, "no TileJSON"),
            ([tree, "--zooms", "0-3"], 2, "of a server, and none is named"),
            ([tiles, "--zooms", "3-1"], 2, "no range of zooms"),
            ([tiles, "--bounds", "-1,2,3"], 2, "no west,south,east,north"),
            ([tiles, "--zooms", "0", "--timeout", "0"], 2, "no number from 1 on"),
        ]:
            run = subprocess.run(
                [*COMMAND, "--no-browser", *map(str, words)], capture_output=True, text=True, timeout=60
            )
            self.assertEqual((run.returncode, run.stdout), (status, ""), words)
            self.assertRegex(run.stderr.splitlines()[-1], f"^mvt-page: .*({why})")


class Large(unittest.TestCase):
    def test_a_broken_tile_behind_150_000_small_ones(self):
        """By answers of a second at most, each, so that who asks may stop."""
        with tempfile.TemporaryDirectory() as room:
            with Serving(make_mbtiles(Path(room, "a.mbtiles"), make_stores.many())) as serving:
                began, longest, query, looked = time.monotonic(), 0, "", 0
                while True:
                    asked = time.monotonic()
                    page = told(serving, f"stores/0/tiles?only=broken&count=1{query}")
                    longest, looked = max(longest, time.monotonic() - asked), looked + page["looked"]
                    if page["tiles"]:
                        break
                    query = f"&after={quote(page['next'])}"
                spent = time.monotonic() - began
                if os.environ.get("TELL"):
                    print(
                        f"a broken tile behind 150,000: {spent:.1f} s, the longest answer {longest:.1f} s, the server {serving.memory('VmHWM'):.0f} MB",
                        flush=True,
                    )
                self.assertEqual((looked, page["tiles"][0]["z"], page["tiles"][0]["cause"]), (150_001, 12, 22))
                self.assertLess(longest, 60)
