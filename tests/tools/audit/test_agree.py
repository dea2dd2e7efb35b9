"""Of each tile, whole or broken, in each kind of store and compression, the audit says what `mvt check` says."""

import gzip
import subprocess
import unittest
from pathlib import Path

from common import Case, at_places, audit, example_tiles, json, make_mbtiles, make_tree, packings, rows, said_by_program

COLUMNS = "verdict, layer, feature, place, cause, cause_name, notes, bytes"


class Agree(Case):
    @classmethod
    def setUpClass(cls):
        tiles = example_tiles()
        # What begins as a gzip is one to the audit, and a broken one.
        del tiles["04-WireType-gzip"]
        cls.tiles = tiles
        cls.said = said_by_program()
        assert set(cls.said) >= set(tiles)

    def expected(self, name):
        verdict, fault, notes = self.said[name]
        return (verdict, *fault, "; ".join(notes), len(self.tiles[name]))

    def test_each_store(self):
        stored, names = [], []
        for name, tile in self.tiles.items():
            for kind, packed in packings(tile).items():
                stored.append(packed)
                names.append(name)
        placed = at_places(stored, z=7)
        tree = make_tree(self.room / "tree", placed, ".pbf")
        base = make_mbtiles(self.room / "a.mbtiles", placed)
        (self.room / "list.txt").write_text("".join(f"tree/{z}/{x}/{y}.pbf\n" for z, x, y in placed))
        status, out, error = audit(tree, base, self.room / "list.txt", "--into", self.into, "--part", 50, "--json")
        self.assertEqual(status, 1, error)
        self.assertEqual(json.loads(out)["tiles"], 3 * len(stored))
        wanted = {place: self.expected(name) for place, name in zip(placed, names)}
        for path in (tree, base, self.room / "list.txt"):
            found = {
                row[:3]: row[3:]
                for row in rows(self.into, f"select z, x, y, {COLUMNS} from tiles where store = ?", str(path))
            }
            self.assertEqual(set(found), set(wanted))
            for place, row in wanted.items():
                self.assertEqual(found[place], row, f"{path}: {names[list(placed).index(place)]}")
        self.counted(json.loads(out), wanted.values())

    def counted(self, found, wanted):
        """The counts are those of the tiles, three times."""
        wanted = list(wanted)
        for verdict in ("accepted", "refused"):
            self.assertEqual(found["verdicts"][verdict], 3 * sum(row[0] == verdict for row in wanted))
        causes = {each["cause_name"]: each["tiles"] for each in found["causes"]}
        self.assertEqual(causes, {row[5]: 3 * sum(each[5] == row[5] for each in wanted) for row in wanted if row[5]})
        counts = dict(rows(self.into, "select verdict, sum(tiles) from counts group by verdict"))
        self.assertEqual(counts, dict(rows(self.into, "select verdict, count(*) from tiles group by verdict")))

    def test_names_of_layers_and_ids(self):
        tiles = {name: self.tiles[name] for name in ("20-ZeroSegment", "24-RepeatedName", "03-FieldNumber-zero")}
        # a layer "roads" with the feature 7, whose line stands still, and an id beyond 63 bits
        roads = b"\x78\x02\x0a\x05roads\x12\x0c\x08\x07\x18\x02\x22\x06\x09\x04\x04\x0a\x00\x00"
        large = b"\x78\x02\x0a\x01a\x12\x15\x08" + b"\xff" * 9 + b"\x01\x18\x02\x22\x06\x09\x04\x04\x0a\x00\x00"
        tiles.update(roads=bytes([0x1A, len(roads)]) + roads, large=bytes([0x1A, len(large)]) + large)
        make_mbtiles(self.room / "a.mbtiles", at_places(tiles.values()))
        audit(self.room / "a.mbtiles", "--into", self.into)
        found = rows(self.into, "select layer, layer_name, feature, feature_id from tiles order by x")
        self.assertEqual(
            found,
            [
                (0, "a", 0, None),
                (1, "a", None, None),
                (None, None, None, None),
                (0, "roads", 0, "7"),
                (0, "a", 0, str(2**64 - 1)),
            ],
        )

    def test_kinds_that_the_codec_does_not_know(self):
        gdal = self.tiles["gdal"]
        tiles = [gdal, gzip.compress(gdal), gzip.compress(gdal)[:-20], b"", gzip.compress(b"")]
        make_tree(self.room / "tree", at_places(tiles))
        status, out, _ = audit(self.room / "tree", "--into", self.into)
        self.assertEqual(status, 1)
        self.assertEqual(len(out.splitlines()), 13)  # two of them about sizes
        self.assertRegex(out, "(?m)^2 accepted$")
        self.assertRegex(out, "(?m)^2 empty$")
        self.assertRegex(out, "(?m)^1 not unpacked$")
        found = rows(self.into, "select verdict, notes from tiles order by x")
        self.assertEqual([row[0] for row in found], ["accepted", "accepted", "not unpacked", "empty", "empty"])
        self.assertEqual(found[2][1], "cut off")

    def test_statuses(self):
        for name, tiles, status in [("good", ["gdal"], 0), ("bad", ["gdal", "20-ZeroSegment"], 1)]:
            make_tree(self.room / name, at_places([self.tiles[tile] for tile in tiles]))
            self.assertEqual(audit(self.room / name, "--into", self.room / f"of {name}")[0], status)
        Path(self.room, "list.txt").write_text("good/5/0/0.mvt\nbad/5/1/0.mvt\nabsent.mvt\n")
        status, out, _ = audit(self.room / "list.txt", "--into", self.into)
        self.assertEqual(status, 3)
        self.assertRegex(out, "(?m)^1 unread$")


class Help(unittest.TestCase):
    def test_help_fits_a_terminal(self):
        from common import AUDIT

        run = subprocess.run(
            [*AUDIT, "--help"], capture_output=True, text=True, env={"COLUMNS": "80", **__import__("os").environ}
        )
        self.assertEqual(run.returncode, 0)
        self.assertLessEqual(max(map(len, run.stdout.splitlines())), 80)


if __name__ == "__main__":
    unittest.main()
