"""PMTiles archives: read as they are laid out, what isn't as it should be told plainly, and hostile ones survived."""

import gzip
import pickle
import random
import subprocess
import sys
import time
import unittest

import archives
from common import Case, at_places, audit, example_tiles, make_mbtiles, make_tree, rows
from mvt_tools import stores
from mvt_tools.audit import judging
from mvt_tools.stores import Address, StoreError
from mvt_tools.stores.tile_ids import id_of, place_of

# As the specification of PMTiles has them.
IDS = {(0, 0, 0): 0, (1, 0, 0): 1, (1, 0, 1): 2, (1, 1, 1): 3, (1, 1, 0): 4, (2, 0, 0): 5, (12, 3423, 1763): 19078479}


def many(count=300):
    """Tiles of four zooms, a third of them equal."""
    chance = random.Random(7)
    places = [(z, x, y) for z in range(5) for x in range(1 << z) for y in range(1 << z)]
    return {
        place: b"\x1a\x00" if chance.random() < 0.4 else b"tile %d" % number
        for number, place in enumerate(places[:count])
    }


def spread(found):
    """Tiles as a store tells them, each of a run by its own place."""
    for address, content in found:
        first = id_of(*address[:3])
        for number in range(first, first + address.tiles):
            yield place_of(number), content


class Ids(unittest.TestCase):
    def test_the_curve(self):
        for place, number in IDS.items():
            self.assertEqual((place_of(number), id_of(*place), archives.tile_id(*place)), (place, number, number))

    def test_all_zooms(self):
        chance = random.Random(3)
        for z in range(32):
            for _ in range(200):
                place = z, chance.randrange(1 << z), chance.randrange(1 << z)
                number = archives.tile_id(*place)
                self.assertEqual((place_of(number), id_of(*place)), (place, number))


class Archives(Case):
    def opened(self, content, name="a.pmtiles"):
        (self.room / name).write_bytes(content)
        store = stores.opened(str(self.room / name))
        return store, store.state()

    def found(self, store, size):
        """All that the store's ranges give, through a pickle as a worker gets them."""
        parts = [pickle.loads(pickle.dumps(part)) for part in store.ranges(size)]
        store = pickle.loads(pickle.dumps(store))
        return [each for part in parts for each in store.tiles(part)]

    def test_each_layout(self):
        tiles = many()
        layouts = [
            {},
            {"leaf": 10},
            {"leaf": 10, "internal": 2},
            {"leaf": 5, "deep": True},
            {"leaf": 7, "addressed": 0},
        ]
        for layout in layouts:
            store, state = self.opened(archives.archive(tiles, **layout))
            self.assertEqual(state.tiles, len(tiles))
            for size in (7, 50, 10_000):
                found = self.found(store, size)
                self.assertEqual(sum(each.tiles for each, _ in found), len(tiles), layout)
                self.assertLess(len(found), len(tiles))
                self.assertEqual(dict(spread(found)), tiles, layout)
            for place in list(tiles)[::17]:
                self.assertEqual(store.tile(Address(*place)), tiles[place])
            with self.assertRaises(FileNotFoundError):
                store.tile(Address(9, 1, 1))

    def test_parts_have_as_many_tiles_as_asked(self):
        store, _ = self.opened(archives.archive(at_places([b"tile %d" % number for number in range(1000)]), leaf=16))
        for size in (1, 7, 16, 30, 48, 1000, 1001):
            counts = [len(list(store.tiles(part))) for part in store.ranges(size)]
            self.assertEqual(counts, [size] * (1000 // size) + [1000 % size] * (1000 % size > 0))

    def test_equal_tiles_of_a_run_are_judged_once(self):
        tiles = {place: b"\x1a\x00" * 300 for place in many()}
        store, _ = self.opened(archives.archive(tiles))
        asked = []
        judge = judging.Judge()
        judge._look = lambda tile: asked.append(tile)
        said = [judge(content) for _, content in self.found(store, 10_000)]
        self.assertLess(len(said), 20)
        self.assertEqual(len(asked), 1)

    def test_a_run_is_one_row(self):
        places = [place_of(number) for number in range(20)]
        store, state = self.opened(
            archives.archive(
                {place: b"\x1a\x00" if 3 <= number < 17 else b"tile" for number, place in enumerate(places)}
            )
        )
        self.assertEqual(state.tiles, 20)
        for size in (1, 2, 50):
            rows = [(*address, content) for address, content in self.found(store, size)]
            self.assertEqual(
                rows,
                [(0, 0, 0, None, 3, b"tile"), (*places[3], None, 14, b"\x1a\x00"), (*places[17], None, 3, b"tile")],
            )
        # The page has a row for each place.
        self.assertEqual([address[:3] for _, address, _ in store.since(None)], places)
        self.assertEqual([key for key, *_ in store.since((5, 0))][:2], [(5, 0), (6, 0)])

    def test_the_same_table_as_a_folder_and_mbtiles(self):
        tiles = at_places([gzip.compress(tile) for name, tile in example_tiles().items() if name != "04-WireType-gzip"])
        tree = make_tree(self.room / "tree", tiles)
        base = make_mbtiles(self.room / "a.mbtiles", tiles)
        (self.room / "a.pmtiles").write_bytes(archives.archive(tiles, leaf=4, internal=2, packed=2))
        for path in (tree, base, self.room / "a.pmtiles"):
            self.assertEqual(audit(path, "--into", self.room / f"of {path.name}", "--part", 7)[0], 1)
        query = f"select {', '.join(judging.Row._fields[:3] + judging.Row._fields[4:])} from tiles order by z, x, y"
        wanted = rows(self.room / "of tree", query)
        self.assertEqual(len(wanted), len(tiles))
        for name in ("of a.mbtiles", "of a.pmtiles"):
            self.assertEqual(rows(self.room / name, query), wanted)
        counts = "select z, verdict, cause, cause_name, layer_name, tiles from counts order by 1, 2, 3, 4, 5"
        self.assertEqual(rows(self.room / "of a.pmtiles", counts), rows(self.room / "of tree", counts))

    def test_other_compressions(self):
        tiles = {place: content * 40 for place, content in many(30).items()}
        for name, code, pack in (("brotli", 3, "compress"), ("zstandard", 4, "compress")):
            try:
                module = __import__(name)
            except ImportError:
                content = archives.archive(tiles, packed=code)
                with self.assertRaisesRegex(StoreError, f"tiles are compressed by .* wants the module {name}"):
                    self.opened(content)
                continue
            packed = {place: getattr(module, pack)(content) for place, content in tiles.items()}
            store, _ = self.opened(archives.archive(packed, packed=code))
            self.assertEqual(dict(spread(self.found(store, 10))), tiles)
            broken = {place: content[:-3] + b"\xff\xff\xff" for place, content in packed.items()}
            store, _ = self.opened(archives.archive(broken, packed=code))
            verdicts = {judging.judged(*each).verdict for each in self.found(store, 10)}
            self.assertLessEqual(verdicts, {"not unpacked", "refused"})

    def refused(self, content, pattern):
        (self.room / "a.pmtiles").write_bytes(content)
        self.fails([self.room / "a.pmtiles"], 3, pattern)

    def changed(self, content, at, put):
        return content[:at] + put + content[at + len(put) :]

    def test_plain_errors(self):
        good = archives.archive(many(20), leaf=4, internal=2)
        self.refused(b"", "cut off: the header has 127 bytes, and 0 are there")
        self.refused(good[:126], "cut off: the header has 127 bytes, and 126 are there")
        self.refused(self.changed(good, 0, b"X"), "no PMTiles: it doesn't begin with 'PMTiles'")
        self.refused(self.changed(good, 7, b"\2"), "PMTiles of version 2; version 3 is read")
        self.refused(self.changed(good, 99, b"\2"), "its tiles are of the type PNG, and not MVT")
        self.refused(self.changed(good, 97, b"\7"), "the compression of its directories is 7")
        self.refused(good[:-1], "the tiles end at")
        self.refused(self.changed(good, 127, b"\0\0"), "gzip: incorrect header check")
        self.refused(archives.archive({}), "no tiles in this archive")

    def root(self, entries, data=b"x" * 100, leaves=b"", addressed=0):
        """An archive of such a root directory, spelled or as its entries."""
        content = entries if isinstance(entries, bytes) else archives.directory(entries)
        sections = [
            127,
            len(content),
            127,
            0,
            127 + len(content),
            len(leaves),
            127 + len(content) + len(leaves),
            len(data),
        ]
        head = archives.HEADER.pack(b"PMTiles", 3, *sections, addressed, 0, 0, 1, 1, 1, 1, 0, 31, *[0] * 6)
        return head[:127] + content + leaves + data

    def unread(self, content):
        store, _ = self.opened(content)
        return [(str(address), str(why)) for address, why in self.found(store, 50) if isinstance(why, Exception)]

    def test_what_is_wrong_with_a_directory_is_told(self):
        number = archives.varint
        early = number(3) + number(1) * 5
        with self.assertRaisesRegex(StoreError, "it ends early, in the run lengths of its 3 entries"):
            self.opened(self.root(early))
        with self.assertRaisesRegex(StoreError, "5 bytes stand behind its 1 entries"):
            self.opened(self.root(archives.directory([(0, 1, 0, 4)]) + b"extra"))
        [(_, why)] = self.unread(self.root(number(1) + b"\xff" * 10 + b"\1" + number(1) + number(4) + number(1)))
        self.assertEqual(why, "a number has more than 64 bits")
        for entries, pattern in [
            ([(0, 1, 0, 4), (1, 5, 0, 4), (3, 1, 4, 4)], "entry 2 .tile id 3. is out of order or overlaps"),
            ([(0, 1, 0, 4), (1, 1, 0, 0)], "entry 1 .tile id 1. has no bytes"),
        ]:
            [(name, why)] = self.unread(self.root(entries))
            self.assertEqual(name, "directory at 127")
            self.assertRegex(why, pattern)
        self.assertEqual(
            self.unread(self.root([(0, 1, 98, 4)])), [("0/0/0", "its bytes end at 102 of 100 bytes of tiles")]
        )
        [(name, why)] = self.unread(self.root([(0, 7, 0, 4)], addressed=6))
        self.assertEqual((name, why), ("directory at 127", "with it the archive has 7 tiles, and its header says 6"))
        [(name, why)] = self.unread(self.root([(0, 7, 0, 4)], addressed=8))
        self.assertEqual((name, why), ("header", "it says 8 tiles, and the directories have 7"))

    def test_leaves_that_lead_astray(self):
        leaf = archives.directory([(5, 0, 0, 5)])
        self.assertEqual(len(leaf), 5)
        found = self.unread(self.root([(5, 0, 0, 5)], leaves=leaf))
        self.assertEqual([why for _, why in found], ["it leads in a circle"])
        found = self.unread(self.root([(5, 0, 0, 60)], leaves=leaf))
        self.assertEqual([why for _, why in found], ["the leaf of tile id 5 ends beyond the 5 bytes of leaves"])
        found = self.unread(self.root([(1, 0, 0, 60), (5, 0, 0, 5)], leaves=leaf))
        self.assertEqual(
            [why for _, why in found],
            ["the leaf of tile id 1 ends beyond the 5 bytes of leaves", "it leads in a circle"],
        )
        found = self.unread(self.root([(4, 0, 0, 5)], leaves=leaf))
        self.assertEqual([why for _, why in found], ["it begins with tile id 5, and the one above says 4"])
        leaf = archives.directory([(5, 1, 0, 6), (9, 1, 0, 6)])
        found = self.unread(self.root([(5, 0, 0, len(leaf)), (8, 1, 0, 4)], leaves=leaf))
        self.assertEqual([why for _, why in found], ["tile id 9 isn't among those that the directory above says"])

    def test_a_directory_that_unpacks_to_too_much(self):
        big = gzip.compress(archives.varint(1) + b"\0" * 70_000_000)
        content = self.root(big)
        with self.assertRaisesRegex(StoreError, "it unpacks to more than 64,000,000 bytes"):
            self.opened(self.changed(content, 97, b"\2"))

    def test_the_same_leaf_a_million_times(self):
        leaf = archives.directory([(0, 1, 0, 4)])
        pointers = archives.directory([(number, 0, 0, len(leaf)) for number in range(200_000)])
        begun = time.monotonic()
        found = self.unread(self.root(pointers, leaves=leaf))
        self.assertLess(len(found), 120)
        self.assertLess(time.monotonic() - begun, 60)


HOSTILE = """
import resource, sys, tempfile
from pathlib import Path
resource.setrlimit(resource.RLIMIT_AS, (int(sys.argv[2]), -1))
from mvt_tools import stores
from mvt_tools.audit import judging
from mvt_tools.stores import StoreError

whole = Path(sys.argv[1]).read_bytes()
head = 127 + int.from_bytes(whole[16:24], "little") + int.from_bytes(whole[48:56], "little") + 2

def versions():
    for at in range(head):
        for put in (0, 1, 0x7f, 0x80, 0xff, whole[at] ^ 1):
            yield whole[:at] + bytes([put]) + whole[at + 1:]
    for end in range(len(whole)):
        yield whole[:end]

tried = 0
with tempfile.TemporaryDirectory() as room:
    path = Path(room, "a.pmtiles")
    for content in versions():
        path.write_bytes(content)
        tried += 1
        try:
            store = stores.opened(str(path))
            store.state()
            for number, part in enumerate(store.ranges(50)):
                for row, (address, what) in enumerate(store.tiles(part)):
                    judging.judged(address, what)
                    if row == 200:
                        break
                if number == 20:
                    break
        except StoreError:
            pass
[most] = [int(line.split()[1]) for line in open("/proc/self/status") if line.startswith("VmHWM")]
print(tried, most)
"""


class Hostile(Case):
    def test_each_byte_changed_and_each_cut(self):
        tiles = at_places([tile for name, tile in example_tiles().items() if len(tile) < 300], z=3)
        for internal in (1, 2):
            content = archives.archive(tiles, leaf=4, internal=internal)
            (self.room / "a.pmtiles").write_bytes(content)
            words = [sys.executable, "-c", HOSTILE, str(self.room / "a.pmtiles"), str(2**31)]
            run = subprocess.run(words, capture_output=True, text=True, timeout=600)
            self.assertEqual(run.returncode, 0, run.stderr)
            tried, most = map(int, run.stdout.split())
            self.assertGreater(tried, len(content))
            self.assertLess(most, 200_000, "kilobytes")


if __name__ == "__main__":
    unittest.main()
