"""Stores and unpacking, without a cluster."""

import contextlib
import gzip
import itertools
import pickle
import random
import resource
import sqlite3
import time
import unittest
import zlib
from collections import Counter
from contextlib import closing

import libmvt
from common import Case, at_places, example_tiles, make_mbtiles, make_tree, packings
from mvt_tools import stores
from mvt_tools.bounds import MEMBERS
from mvt_tools.stores.files import ReadAhead
from mvt_tools.audit.judging import judged, judged_part
from mvt_tools.audit.results import Block, Results
from mvt_tools.stores import Address, StoreError
from mvt_tools.stores.unpacking import LIMIT, NotUnpacked, unpacked


def all_of(store, size):
    """All tiles of a store, by ranges, through a pickle as a worker gets them."""
    ranges = list(store.ranges(size))
    store = pickle.loads(pickle.dumps(store))
    return [list(store.tiles(pickle.loads(pickle.dumps(part)))) for part in ranges]


class Stores(Case):
    tiles = at_places([b"tile %d" % number for number in range(100)])

    def found(self, path, size=7):
        store = stores.opened(str(path))
        state = store.state()
        parts = all_of(store, size)
        self.assertEqual(parts, all_of(store, size))
        self.assertEqual(state, store.state())
        self.assertEqual(state.tiles, sum(map(len, parts)))
        self.assertLessEqual(max(map(len, parts)), size)
        for address, content in parts[3]:
            self.assertEqual(store.tile(address), content)
        self.by_keys(store, [each for part in parts for each in part])
        return [each for part in parts for each in part]

    def by_keys(self, store, tiles):
        """A store that was only looked at has the same tiles, each by its key and its place."""
        store = stores.opened(store.path)
        store.check()
        since = list(store.since(None))
        self.assertCountEqual([(address, content) for _, address, content in since], tiles)
        for number, (key, address, content) in list(enumerate(since))[::25]:
            self.assertEqual(list(itertools.islice(store.since(key), 2)), since[number : number + 2])
            self.assertEqual(store.held(key), content)
            if address.z is not None:
                self.assertEqual(store.find(address.z, address.x, address.y), key)
        self.assertIsNone(store.find(20, 1, 1))

    def test_mbtiles_are_counted_from_the_south(self):
        for kind in ("table", "keys", "view"):
            path = make_mbtiles(self.room / f"{kind}.mbtiles", self.tiles, kind)
            found = {(address.z, address.x, address.y): content for address, content in self.found(path)}
            self.assertEqual(found, self.tiles, kind)

    def test_row_ids_far_apart(self):
        path = make_mbtiles(self.room / "a.mbtiles", self.tiles, "sparse")
        with sqlite3.connect(path) as database:
            database.execute("update tiles set rowid = rowid * 1000003")
        database.close()
        self.assertEqual(len(self.found(path)), 100)

    def test_a_row_without_data_or_with_odd_numbers(self):
        path = make_mbtiles(self.room / "a.mbtiles", {(1, 0, 0): None, (1, 1, 0): "text"})
        with sqlite3.connect(path) as database:
            database.execute("insert into tiles values ('x', 1, 2, x'00')")
        database.close()
        found = {str(address): content for address, content in all_of(stores.opened(str(path)), 10)[0]}
        self.assertEqual(found, {"1/0/0": b"", "1/1/0": b"text", "x/1/2": b"\0"})

    def test_trees(self):
        make_tree(self.room / "tree", self.tiles)
        make_tree(self.room / "tree", {(4, 1, 1): b"a"}, ".pbf")
        make_tree(self.room / "tree", {(4, 1, 2): b"b"}, ".mvt.gz")
        make_tree(self.room / "tree", {(4, 1, 3): b"c"}, ".png")
        (self.room / "tree" / "metadata.json").write_text("{}")
        found = self.found(self.room / "tree")
        self.assertEqual(len(found), 102)
        self.assertEqual(found[0], (Address(4, 1, 1, "4/1/1.pbf"), b"a"))
        self.assertEqual(found[1], (Address(4, 1, 2, "4/1/2.mvt.gz"), b"b"))
        self.assertEqual(dict(found)[Address(5, 9, 1, "5/9/1.mvt")], b"tile 41")

    def test_lists(self):
        make_tree(self.room / "tree", self.tiles)
        (self.room / "odd name.bin").write_bytes(b"odd")
        names = [f"tree/{z}/{x}/{y}.mvt" for z, x, y in self.tiles]
        (self.room / "list.txt").write_text("\n".join([*names, "", "odd name.bin"]) + "\n")
        found = self.found(self.room / "list.txt")
        self.assertEqual(len(found), 101)
        self.assertEqual(found[41], (Address(5, 9, 1, "tree/5/9/1.mvt"), b"tile 41"))
        self.assertEqual(found[100], (Address(None, None, None, "odd name.bin"), b"odd"))

    def test_a_file_that_is_gone_is_unread(self):
        (self.room / "list.txt").write_text("gone.mvt\n")
        [[(address, content)]] = all_of(stores.opened(str(self.room / "list.txt")), 10)
        row = judged(address, content)
        self.assertEqual((row.name, row.verdict, row.notes), ("gone.mvt", "unread", "No such file or directory"))

    def test_a_changed_store_has_another_state(self):
        tree = make_tree(self.room / "tree", self.tiles)
        base = make_mbtiles(self.room / "a.mbtiles", self.tiles)
        (self.room / "list.txt").write_text("tree/5/0/0.mvt\n")
        opened = [stores.opened(str(path)) for path in (tree, base, self.room / "list.txt")]
        before = [store.state() for store in opened]
        (tree / "5" / "0" / "0.mvt").write_bytes(b"longer than before")
        with sqlite3.connect(base) as database:
            database.execute("delete from tiles where tile_column = 3")
        database.close()
        for store, state in zip(opened, before):
            self.assertNotEqual(store.state().digest, state.digest, store.path)

    def test_what_is_no_store(self):
        (self.room / "a.mbtiles").write_bytes(b"no SQLite at all")
        (self.room / "cut.mbtiles").write_bytes(make_mbtiles(self.room / "b.mbtiles", self.tiles).read_bytes()[:9000])
        make_mbtiles(self.room / "none.mbtiles", {})
        make_mbtiles(self.room / "png.mbtiles", self.tiles, form="png")
        (self.room / "folder").mkdir()
        (self.room / "empty.txt").write_text("\n")
        with sqlite3.connect(self.room / "other.mbtiles") as database:
            database.execute("create table t (a)")
        database.close()
        for name, why in [
            ("a.mbtiles", "no SQLite file"),
            ("cut.mbtiles", "cut off: 9,000 of"),
            ("none.mbtiles", "no tiles"),
            ("png.mbtiles", "format 'png'"),
            ("folder", "no tiles"),
            ("empty.txt", "no names"),
            ("other.mbtiles", "no MBTiles"),
            ("absent.mbtiles", "No such file"),
            ("absent.txt", "No such file"),
            ("absent", "no store of tiles"),
        ]:
            with self.assertRaisesRegex(StoreError, why):
                stores.opened(str(self.room / name)).state()

    def test_a_damaged_page_leaves_the_other_tiles(self):
        tiles = at_places([b"%04d" % number * 200 for number in range(500)])
        path = make_mbtiles(self.room / "a.mbtiles", tiles)
        content = bytearray(path.read_bytes())
        at = content.index(b"0250" * 200) // 4096 * 4096
        content[at : at + 4096] = bytes(4096)
        path.write_bytes(content)
        store = stores.opened(str(path))
        store.state()
        found = [each for part in all_of(store, 100) for each in part]
        read = {(address.z, address.x, address.y): tile for address, tile in found if isinstance(tile, bytes)}
        self.assertEqual(len(found), 500)
        self.assertTrue(490 <= len(read) < 500, len(read))
        self.assertTrue(all(tiles[place] == tile for place, tile in read.items()))
        unread = [judged(address, tile) for address, tile in found if not isinstance(tile, bytes)]
        self.assertEqual({row.verdict for row in unread}, {"unread"})
        self.assertRegex(unread[0].name, r"row \d+")


class Blocks(Case):
    def test_many_parts_have_each_row_and_its_counts(self):
        contents = [b"", b"no tile", b"\x1f\x8bcut", gzip.compress(bytes([0x78, 0x01]))]
        tiles = at_places([contents[number % 7 % 4] for number in range(3000)], 12)
        tiles.update({(8, 3, 3): b"", (9, 511, 0): b"no tile"})
        store = stores.opened(str(make_mbtiles(self.room / "it's.mbtiles", tiles)))
        with closing(Results(self.into)) as results:
            results.begin([store], [store.state()], 250)
            blocks = [
                Block(store.path, part, judged_part(store, tiles)) for part, tiles in enumerate(store.ranges(250))
            ]
            self.assertGreater(len(blocks), 10)
            added = results.add(blocks)
            columns = "verdict, cause, cause_name, layer_name, min(findings, 1), notes"
            found = results.database.execute(f"select store, z, x, y, {columns} from tiles").fetchall()
            counts = results.database.execute("select * from counts").fetchall()
            notes = results.database.execute("select note, tiles from note_counts where z = 12").fetchall()
            cells = results.database.execute("select * from cells").fetchall()
        self.assertEqual({row[1:4] for row in found}, set(tiles))
        self.assertEqual(Counter((*row[:2], *row[4:9]) for row in found), {row[:-1]: row[-1] for row in counts})
        self.assertEqual(sum(tiles for tiles, _ in added), 3002)
        broken = Counter(row[1:4] for row in found if row[4] in ("refused", "not unpacked"))
        self.assertEqual(sum(tiles for _, tiles in added), broken.total())
        self.assertEqual(notes, [("NoLayers", sum(row[1] == 12 and row[9] == "NoLayers" for row in found))])
        squares = {}
        for z, x, y in tiles:
            if z > 8:
                square = squares.setdefault((z, x >> z - 8, y >> z - 8), [0, 0])
                square[0] += 1
                square[1] += broken[z, x, y]
        self.assertEqual({row[:3]: list(row[3:]) for row in cells}, squares)

    def test_reading_ahead_reads_what_stands_there(self):
        content = random.Random(7).randbytes(3_000_000)
        (self.room / "file").write_bytes(content)
        pieces = [(at, 1000) for at in range(0, 2_999_000, 1000)] + [
            (5, 7),
            (0, 3_000_000),
            (2_999_990, 20),
            (4_000_000, 5),
            (12, 0),
        ]
        with open(self.room / "file", "rb") as file:
            read = ReadAhead(file.fileno())
            for at, length in [*pieces, *pieces[::-1], *pieces[::7]]:
                self.assertEqual(read(at, length), content[at : at + length], (at, length))


class Unpacking(unittest.TestCase):
    def test_each_compression(self):
        for tile in [*example_tiles().values(), bytes(1 << 20)]:
            if len(tile) < LIMIT:
                for kind, stored in packings(tile).items():
                    if kind != "plain" or not tile.startswith(b"\x1f\x8b"):
                        self.assertEqual(unpacked(stored), tile, kind)
        self.assertEqual(unpacked(gzip.compress(b"a") + gzip.compress(b"b") + b"\0\0"), b"ab")

    def test_many_members(self):
        one = gzip.compress(b"ab", mtime=0)
        self.assertEqual(unpacked(one * MEMBERS), b"ab" * MEMBERS)
        self.assertEqual(unpacked((one + bytes(70_000)) * 50), b"ab" * 50)
        with self.assertRaisesRegex(NotUnpacked, "more than 4,096 members of gzip"):
            unpacked(one * (MEMBERS + 1))
        large = gzip.compress(bytes(LIMIT // 2), mtime=0)
        self.assertEqual(unpacked(large * 2), bytes(LIMIT))
        self.assertEqual(len(unpacked(large * 2 + one)), LIMIT + 1)

    def test_members_cost_no_square_of_their_number(self):
        for stored in (
            gzip.compress(b"", mtime=0) * 100_000,
            gzip.compress(random.Random(1).randbytes(16_000), mtime=0) * 4096,
        ):
            begun = time.process_time()
            with contextlib.suppress(NotUnpacked):
                unpacked(stored)
            self.assertLess(time.process_time() - begun, 15)

    def test_what_is_broken(self):
        tile = example_tiles()["gdal"]
        whole = gzip.compress(tile)
        wrong = bytearray(whole)
        wrong[-6] ^= 1
        for stored, why in [
            (whole[:100], "cut off"),
            (whole[:-1], "cut off"),
            (wrong, "incorrect data check"),
            (b"\x1f\x8b", "cut off"),
            (whole + b"more", "4 more bytes"),
            (b"\x1f\x8b\x07" + bytes(20), "unknown compression method"),
            (zlib.compress(tile)[:-1], "cut off"),
            (zlib.compress(tile) + b"x", "1 more bytes"),
        ]:
            with self.assertRaisesRegex(NotUnpacked, why):
                unpacked(bytes(stored))
            row = judged(Address(0, 0, 0), bytes(stored))
            self.assertEqual((row.verdict, row.bytes), ("not unpacked", len(stored)))

    def test_a_tile_that_looks_like_zlib(self):
        # field 15 of the tile, an unknown one, as a varint
        tile = bytes([0x78, 0x01])
        row = judged(Address(0, 0, 0), tile)
        self.assertEqual((row.verdict, row.notes), ("accepted", "NoLayers"))

    def test_empty_tiles(self):
        for stored in (b"", gzip.compress(b""), zlib.compress(b"")):
            row = judged(Address(0, 0, 0), stored)
            self.assertEqual((row.verdict, row.bytes, row.notes), ("empty", 0, "NoLayers"))

    def test_a_bomb_is_too_large_without_its_memory(self):
        stream = zlib.compressobj(1, wbits=31)
        bomb = b"".join([*(stream.compress(bytes(1 << 24)) for _ in range(64)), stream.flush()])
        before = resource.getrusage(resource.RUSAGE_SELF).ru_maxrss
        row = judged(Address(0, 0, 0), bomb)
        grown = (resource.getrusage(resource.RUSAGE_SELF).ru_maxrss - before) * 1024
        self.assertEqual((row.verdict, row.place, row.cause, row.cause_name), ("refused", LIMIT, 25, "TooLarge"))
        self.assertLess(grown, 4 * LIMIT)

    def test_refused_survives_pickling(self):
        fault = libmvt.Refused(1, None, 17, 22, "FirstRing")
        again = pickle.loads(pickle.dumps(fault))
        self.assertEqual(vars(again), vars(fault))
        self.assertEqual(str(again), "layer 1 feature - at 17: 22 FirstRing")


if __name__ == "__main__":
    unittest.main()
