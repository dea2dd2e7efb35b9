"""Copies of stores in which tiles are mended: what stands in them, what is told, and that an ended run goes on."""

import gzip
import json
import os
import signal
import sqlite3
import time
import unittest
import zlib
from contextlib import closing
from pathlib import Path

import libmvt
from archives import archive
from common import Case, at_places, audit, example_tiles, files, held, make_mbtiles, make_tree, packings, rows, start
from mvt_tools.audit.parts import Part

EXAMPLES = example_tiles()
# Two that are mended, one that isn't, a good one, and none at all.
BROKEN = [EXAMPLES["20-ZeroSegment"], EXAMPLES["22-FirstRing"]]
OTHERS = [EXAMPLES["10-NoName"], EXAMPLES["gdal"], b""]
MENDED = [libmvt.mend(tile).bytes for tile in BROKEN]


class Mends(Case):
    def mend(self, store, name, status=1):
        new = self.room / name
        got, out, error = audit(store, "--into", self.into, "--mend", new, "--json")
        self.assertEqual(got, status, error)
        self.assertFalse(list(self.room.glob("*.part")))
        return new, json.loads(out)

    def check_told(self, found, copied):
        told = found["mended"]
        self.assertEqual((told["copied"], told["left_out"]), (copied, 0))
        self.assertEqual(told["tiles"], {"FirstRing": 1, "ZeroSegment": 1})
        self.assertEqual(told["changes"], {"FeatureLeftOut": 1, "TurnedRing": 1})
        self.assertEqual(found["still_broken"], {"NoName": 1})

    def test_an_mbtiles_file(self):
        for kind in ("table", "view", "keys"):
            tiles = at_places([*BROKEN, *OTHERS])
            store = make_mbtiles(self.room / f"{kind}.mbtiles", tiles, kind)
            self.into = self.room / f"audit-{kind}"
            new, found = self.mend(store, f"new-{kind}.mbtiles")
            wanted = dict(zip(tiles, [*MENDED, *OTHERS]))
            self.assertEqual(held(new), (wanted, {"format": "pbf"}))
            self.check_told(found, 5)
            page = (self.into / "report.html").read_text()
            self.assertIn("Still broken: NoName 1", page)
            self.assertEqual(held(store)[0], tiles)

    def test_compression_is_kept(self):
        for packing in ("gzip", "zlib"):
            tiles = at_places([packings(tile)[packing] for tile in [*BROKEN, *OTHERS[:2]]])
            store = make_mbtiles(self.room / f"{packing}.mbtiles", tiles)
            self.into = self.room / f"audit-{packing}"
            new, _ = self.mend(store, f"new-{packing}.mbtiles")
            got = list(held(new)[0].values())
            unpack = gzip.decompress if packing == "gzip" else zlib.decompress
            self.assertEqual([*map(unpack, got[:2]), *got[2:]], [*MENDED, *list(tiles.values())[2:]])

    def test_metadata_are_kept(self):
        store = make_mbtiles(self.room / "a.mbtiles", at_places(BROKEN))
        said = {
            "format": "pbf",
            "name": "Lakes – Ω",
            "json": '{"vector_layers": []}',
            "maxzoom": "5",
            "more": "x" * 5000,
        }
        with closing(sqlite3.connect(store)) as database, database:
            database.execute("delete from metadata")
            database.executemany("insert into metadata values (?, ?)", said.items())
        new, _ = self.mend(store, "new.mbtiles", 0)
        self.assertEqual(held(new)[1], said)

    def test_a_folder(self):
        tiles = at_places([*BROKEN, *OTHERS])
        store = make_tree(self.room / "store", tiles)
        (store / "metadata.json").write_text('{"name": "x"}')
        (store / "7" / "7").mkdir(parents=True)
        (store / "7" / "7" / "7.pbf.gz").write_bytes(gzip.compress(BROKEN[1]))
        (store / "notes.txt").write_text("no tile")
        before = files(store)
        new, found = self.mend(store, "new")
        got = files(new)
        self.assertEqual(gzip.decompress(got.pop("7/7/7.pbf.gz")), MENDED[1])
        wanted = {f"{z}/{x}/{y}.mvt": tile for (z, x, y), tile in zip(tiles, [*MENDED, *OTHERS])}
        self.assertEqual(got, {**wanted, "metadata.json": b'{"name": "x"}'})
        self.assertEqual(files(store), before)
        self.assertEqual(found["mended"]["tiles"], {"FirstRing": 2, "ZeroSegment": 1})

    def test_an_archive_becomes_an_mbtiles_file(self):
        """With a run of equal tiles, each of which is mended."""
        places = [(2, x, y) for y in range(4) for x in range(4)]
        tiles = {place: BROKEN[1] if place[2] < 2 else EXAMPLES["gdal"] for place in places}
        store = self.room / "a.pmtiles"
        store.write_bytes(archive(tiles, said={"name": "Lakes", "vector_layers": [{"id": "a", "fields": {}}]}))
        new, found = self.mend(store, "new.mbtiles", 0)
        got, said = held(new)
        self.assertEqual(got, {place: MENDED[1] if place[2] < 2 else EXAMPLES["gdal"] for place in places})
        self.assertEqual((said["name"], said["format"]), ("Lakes", "pbf"))
        self.assertEqual(json.loads(said["json"]), {"vector_layers": [{"id": "a", "fields": {}}]})
        self.assertEqual((found["mended"]["tiles"], found["still_broken"]), ({"FirstRing": 8}, {}))
        status, out, error = audit(new, "--into", self.room / "again", "--json")
        self.assertEqual((status, json.loads(out)["verdicts"]["accepted"]), (0, 16), error)

    def test_the_lines(self):
        store = make_mbtiles(self.room / "a.mbtiles", at_places([*BROKEN, *OTHERS]))
        new = self.room / "b.mbtiles"
        status, out, error = audit(store, "--mend", new)
        self.assertEqual((status, error), (1, ""))
        self.assertIn(f"mended: 2 of 5 tiles, in {new}\n", out)
        self.assertIn(
            "changes, in how many tiles: FeatureLeftOut 1 in 1, TurnedRing 1 in 1\nstill broken: NoName 1\n", out
        )
        self.assertEqual(rows(self.room / "b.mbtiles.audit", "select count(*) from tiles"), [(5,)])

    def test_what_can_be_mended_but_for_another_rule_stays(self):
        tile = BROKEN[0] + bytes.fromhex("1a027802")
        store = make_mbtiles(self.room / "a.mbtiles", at_places([tile]))
        new, found = self.mend(store, "new.mbtiles")
        self.assertEqual(list(held(new)[0].values()), [tile])
        self.assertEqual((found["mended"]["tiles"], found["still_broken"]), ({}, {"ZeroSegment": 1}))

    def test_rows_without_a_place_are_counted(self):
        store = make_mbtiles(self.room / "a.mbtiles", at_places([*BROKEN, *OTHERS]))
        with closing(sqlite3.connect(store)) as database, database:
            database.execute("insert into tiles values ('x', null, 7, ?)", (OTHERS[1],))
        new, found = self.mend(store, "new.mbtiles", 3)
        self.assertEqual((len(held(new)[0]), found["mended"]["left_out"]), (5, 1))


class Fails(Case):
    def test_plain_errors(self):
        store = make_tree(self.room / "store", at_places(BROKEN))
        (self.room / "there").mkdir()
        (self.room / "list.txt").write_text("store/5/0/0.mvt\n")
        (self.room / "new.mbtiles.part").write_bytes(b"something else")
        (self.room / "folder.part").mkdir()
        (self.room / "folder.part" / "mine").write_text("mine")
        mbtiles = make_mbtiles(self.room / "a.mbtiles", at_places(BROKEN))
        Path(self.room, "a.pmtiles").write_bytes(archive(at_places(BROKEN)))
        for words, why in [
            ((store, "--mend", self.room / "there"), "is there already"),
            ((self.room / "list.txt", "--mend", self.room / "new"), "what is mended is a folder, an MBTiles file or"),
            ((store, mbtiles, "--mend", self.room / "new"), "takes one store"),
            ((self.room / "a.pmtiles", "--mend", self.room / "new.pmtiles"), "let its name end with .mbtiles"),
            ((mbtiles, "--mend", self.room / "new.mbtiles"), "isn't a copy that mvt-audit began"),
            ((store, "--mend", self.room / "folder"), "isn't a copy that mvt-audit began"),
        ]:
            with self.subTest(why):
                self.into = self.room / f"audit {why}"
                self.fails(words, 2, why)
        self.assertEqual((self.room / "new.mbtiles.part").read_bytes(), b"something else")
        self.assertEqual((self.room / "folder.part" / "mine").read_text(), "mine")

    def test_it_wants_a_place_for_the_results(self):
        status, _, error = audit(self.room)
        self.assertEqual(
            (status, error.splitlines()[-1]), (2, "mvt-audit: error: the following arguments are required: --into")
        )


class GoesOn(Case):
    COUNT = 60_000

    def ended(self, store, new, number):
        """A run that is ended while it copies."""
        run = start(store, "--into", self.into, "--mend", new, "--workers", 2)
        part = new.with_name(f"{new.name}.part")
        begun = time.monotonic()
        while run.poll() is None and time.monotonic() - begun < 60:
            if part.exists() and self.copied(part):
                os.kill(run.pid, number)
                break
            time.sleep(0.002)
        run.communicate(timeout=60)
        return part.exists() and not new.exists()

    def copied(self, part):
        copy = part / "copy"
        if copy.is_dir():
            return (copy / "9").is_dir()
        try:
            with closing(sqlite3.connect(f"file:{copy}?mode=ro", uri=True)) as database:
                return database.execute("select key from copying").fetchone() not in (None, ("null",))
        except sqlite3.Error:
            return False

    def tiles(self, count):
        some = [*BROKEN, OTHERS[0], EXAMPLES["postgis"]]
        return at_places([some[number % 4] for number in range(count)], 9)

    def check(self, store, new, count):
        status, out, error = audit(store, "--into", self.into, "--mend", new, "--json")
        self.assertEqual(status, 1, error)
        told = json.loads(out)["mended"]
        self.assertEqual((told["copied"], told["left_out"]), (count, 0))
        self.assertEqual(told["tiles"], {"ZeroSegment": count // 4, "FirstRing": count // 4})
        self.assertEqual(told["changes"], {"FeatureLeftOut": count // 4, "TurnedRing": count // 4})

    def test_a_killed_copy_of_an_mbtiles_file(self):
        tiles = self.tiles(self.COUNT)
        store, new = make_mbtiles(self.room / "a.mbtiles", tiles), self.room / "new.mbtiles"
        for number in (signal.SIGKILL, signal.SIGINT):
            if not self.ended(store, new, number):
                self.skipTest("the copy was quicker")
        self.check(store, new, self.COUNT)
        some = [*MENDED, OTHERS[0], EXAMPLES["postgis"]]
        self.assertEqual(held(new)[0], {place: some[number % 4] for number, place in enumerate(tiles)})

    def test_a_killed_copy_of_a_folder(self):
        tiles = self.tiles(8000)
        store, new = make_tree(self.room / "store", tiles), self.room / "new"
        if not self.ended(store, new, signal.SIGKILL):
            self.skipTest("the copy was quicker")
        self.check(store, new, 8000)
        some = [*MENDED, OTHERS[0], EXAMPLES["postgis"]]
        wanted = {f"{z}/{x}/{y}.mvt": some[number % 4] for number, (z, x, y) in enumerate(tiles)}
        self.assertEqual(files(new), wanted)

    def test_a_store_that_changed_is_copied_anew(self):
        store, new = make_mbtiles(self.room / "a.mbtiles", at_places(BROKEN)), self.room / "new.mbtiles"
        self.into.mkdir()
        with closing(Part(new, self.into, "of another state")) as part:
            part.whole.write_bytes(b"something")
        self.assertEqual(audit(store, "--into", self.into, "--mend", new)[0], 0)
        self.assertEqual(list(held(new)[0].values()), MENDED)


if __name__ == "__main__":
    unittest.main()
