"""The parts of the page: what is said of a fault, what its feature draws, and where maps lie."""

import re
import resource
import unittest
from pathlib import Path

import libmvt
from common import TOP, example_tiles
from libmvt import cause_text
from mvt_tools.audit.report import maps, pictures, sentences, shapes
from wire import field, packed


def causes():
    return [
        int(cause)
        for cause in re.findall(r"^\| (\d+) \| \w+ \|", Path(TOP, "docs", "FORMAT.md").read_text(), re.MULTILINE)
    ]


class Words(unittest.TestCase):
    def test_each_cause_has_a_meaning(self):
        meanings = {cause_text(cause) for cause in causes()}
        self.assertEqual(len(meanings), len(causes()))
        self.assertNotIn(cause_text(9), meanings)
        self.assertEqual(cause_text(20), "A line goes nowhere: this LineTo moves by (0, 0).")

    def test_what_is_marked(self):
        said = [sentences.marked(*place) for place in [(4, 4), (4, 5), (4, 1006)]]
        self.assertEqual(said, ["The place is before byte 4.", "Marked: byte 4.", "Marked: bytes 4 to 1,005."])

    def test_rows_round_a_place(self):
        shown = sentences.hex_rows(bytes(range(100)), 41, 43)
        self.assertEqual([row.start for row in shown], [16, 24, 32, 40, 48, 56, 64, 72, 80, 88, 96])
        self.assertEqual([row.mark for row in shown if row.mark[0] < row.mark[1]], [(1, 3)])
        self.assertEqual(shown[-1].content, bytes([96, 97, 98, 99]))
        self.assertEqual(sentences.hex_rows(b"", 0, 0), [])

    def test_anything_is_survived(self):
        """Faults that don't fit the bytes draw something or nothing, and nothing is thrown."""
        tiles = [tile[:size] for tile in example_tiles().values() for size in (0, 1, 9, 40) if len(tile) < 10_000]
        for tile in tiles:
            for cause in causes():
                for layer, feature, at in [
                    (None, None, 0),
                    (0, None, 5),
                    (0, 0, 3),
                    (3, 900, 10**9),
                    (0, 0, 2**63),
                ]:
                    pictures.close_up(tile, libmvt.Refused(layer, feature, at, cause, "Name"))


def paths(integers):
    """What the integers of a feature of a tile draw."""
    tile = field(3, field(2, field(4, packed(integers))))
    return libmvt.around(tile, libmvt.Refused(0, 0, 0, 17, "Command")).paths()


class Shapes(unittest.TestCase):
    # MoveTo (2, 3), LineTo +(8, 0) +(0, 10), ClosePath, MoveTo +(1, 1)
    integers = [9, 4, 6, 18, 16, 0, 0, 20, 15, 9, 2, 2]

    def test_paths(self):
        drawn = paths(self.integers)
        self.assertEqual([path.points for path in drawn], [[(2, 3), (10, 3), (10, 13)], [(11, 14)]])
        self.assertEqual([path.is_closed for path in drawn], [True, False])
        self.assertEqual(paths([9, 3, 3])[0].points, [(-2, -2)])
        self.assertEqual(paths([9, 4, 6, 3, 3, 3])[0].points, [(2, 3)])
        self.assertEqual(paths([18, 4]), [])
        self.assertEqual(paths([0xFFFFFFF9, 4, 6])[0].points, [(2, 3)])

    def test_positions(self):
        drawn = paths(self.integers)
        points = [drawn and (lambda path, at: path.points[at])(*shapes.position(drawn, index)) for index in range(12)]
        wanted = [(2, 3)] * 4 + [(10, 3)] * 2 + [(10, 13)] * 4 + [(11, 14)] * 2
        self.assertEqual(points, wanted)
        self.assertIsNone(shapes.position([], 0))


class Pictures(unittest.TestCase):
    def test_a_text_of_many_features_makes_no_large_picture(self):
        points = [libmvt.Feature(None, {"a": "x" * 100_000}, "points", [(5, 5)])] * 3000
        tile = libmvt.write(libmvt.Tile([libmvt.Layer("a", 4096, points)]))
        # a layer "b" with a line that stands still
        broken = b"\x1a\x12\x78\x02\x0a\x01b\x12\x0b\x18\x02\x22\x07\x09\x04\x04\x0a\x00\x00\x00"
        with self.assertRaises(libmvt.Refused) as refused:
            libmvt.judge(tile + broken)
        before = resource.getrusage(resource.RUSAGE_SELF).ru_maxrss
        picture = pictures.of_tile(tile + broken, refused.exception)
        self.assertLess(resource.getrusage(resource.RUSAGE_SELF).ru_maxrss - before, 100_000)
        self.assertIn('class="points"', picture.svg)
        self.assertNotIn("xxx", picture.svg)

    def test_a_picture_without_attributes_draws_the_same(self):
        for name, tile in example_tiles().items():
            try:
                drawn = libmvt.to_svg(tile)
            except libmvt.Refused:
                continue
            with self.subTest(name):
                self.assertEqual(pictures._drawing(tile), re.sub("<title>[^<]*</title>\n?", "", drawn))

    def test_only_what_is_broken_is_left_out(self):
        """A layer of 300 bytes with two features, of which the second is broken, between two others."""
        drawn, broken = b"\x18\x01\x22\x03\x09\x04\x04", b"\x18\x02\x22\x07\x09\x04\x04\x0a\0\0\0"
        before, behind = (field(3, b"\x78\x02" + field(1, name)) for name in (b"a", b"c"))
        head = b"\x78\x02" + field(1, b"b" * 300) + field(2, drawn)
        tile = before + field(3, head + field(2, broken)) + behind
        self.assertEqual(pictures.good_part(tile), (before + field(3, head) + behind, 1))
        self.assertEqual(pictures.good_part(tile + b"\x1a\x02\x78\x02"), (before + field(3, head) + behind, 2))
        self.assertEqual(pictures.good_part(tile + b"\x1a"), (before + field(3, head) + behind, 2))


class Maps(unittest.TestCase):
    def test_where_maps_lie(self):
        self.assertEqual(maps._where(3, maps.Box(0, 0, 8, 0)), "the whole world")
        self.assertEqual(maps._where(2, maps.Box(2, 0, 2, 0)), "0° E to 180° E, 0° N to 85° N")
        self.assertEqual(maps._where(14, maps.Box(8192, 8192, 16, 0)), "0.00° E to 0.35° E, 0.35° S to 0.00° N")


if __name__ == "__main__":
    unittest.main()
