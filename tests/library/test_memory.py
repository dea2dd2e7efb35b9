"""What the Python module keeps and gives back: many calls leave the process as large as before, and so does each allocation
that is refused: test_memory.py ALLOCATOR.SO (tests/allocator), which is loaded before the C
library."""

import ctypes
import gc
import sys
import unittest
from pathlib import Path

import libmvt
from libmvt.raw import json_lent, lint_rows, lookalike, looked_at, mend_rows, survey_rows, svg_lent

TILES = Path(__file__).resolve().parents[2] / "fixtures" / "tiles"
TILE = (TILES / "gdal.mvt").read_bytes()
BROKEN = (TILES / "broken" / "20-ZeroSegment.mvt").read_bytes()
# A feature of unknown type without integers, which viewers stumble over, and a layer without features, which is noted.
FOUND = bytes.fromhex("1a077802 0a0161 1200 1a057802 0a0162")
WHOLE = libmvt.read(TILE)
ROWS = libmvt.rows(TILE)
REFUSING = sys.argv[1] if len(sys.argv) > 1 and sys.argv[1].endswith(".so") else None


def built():
    builder = libmvt.Builder().layer("a", extent=512)
    builder.feature("points", id=7).tag("name", "x").tag("depth", libmvt.Float(0.5)).point(1, 2).points([(3, 4)])
    builder.feature("lines").line([(0, 0), (1, 2)]).tag_at(builder.key("k"), builder.value(-5))
    builder.feature("polygons").ring([(0, 0), (8, 0), (8, 8)], exterior=True)
    builder.feature("unknown").integers([9, 2]).foreign(1, bytes.fromhex("78010A0162"))
    return builder.rows(), builder.finish()


def decoded():
    decoder = libmvt.Decoder()
    for at in range(0, len(TILE), 100):
        decoder.feed(TILE[at : at + 100])
    return decoder.finish()


def refused_of_decoder():
    decoder = libmvt.Decoder(most=1 << 20)
    decoder.feed(BROKEN)
    decoder.rows()


def tile_with(**changed):
    fields = {"id": None, "attributes": {}, "kind": "points", "geometry": [(1, 1)], **changed}
    return libmvt.Tile([libmvt.Layer("a", 4096, [libmvt.Feature(**fields)])])


def texts_of_rows():
    flat = libmvt.rows(TILE)
    return (
        [flat.text(layer.name) for layer in flat.layers],
        [flat.line(part) for part in flat.parts],
        repr(flat.points[0]),
    )


GOOD = (
    lambda: libmvt.read(TILE),
    lambda: libmvt.read(bytearray(TILE)),
    lambda: libmvt.read_layer(TILE, "water"),
    lambda: libmvt.rows(TILE).layers[0].name.start,
    lambda: memoryview(libmvt.rows(TILE).points).nbytes,
    texts_of_rows,
    lambda: libmvt.write(WHOLE),
    lambda: libmvt.write(ROWS),
    lambda: libmvt.report(TILE),
    lambda: libmvt.survey(FOUND),
    lambda: survey_rows(BROKEN),
    lambda: lint_rows(BROKEN),
    lambda: lint_rows(FOUND),
    lambda: looked_at(TILE),
    lambda: looked_at(FOUND),
    lambda: looked_at(BROKEN),
    lambda: lookalike(bytearray(b"GIF89a")),
    lambda: mend_rows(TILE),
    lambda: mend_rows(BROKEN),
    lambda: memoryview(json_lent(TILE)).nbytes,
    lambda: memoryview(svg_lent(TILE)).nbytes,
    lambda: [memoryview(each).nbytes for each in libmvt.rows(TILE).buffers()],
    lambda: libmvt.rewrite(TILE),
    lambda: libmvt.to_json(TILE),
    lambda: libmvt.to_svg(TILE),
    lambda: libmvt.extract(TILE, ["water", "roads"]),
    built,
    decoded,
)
BAD = (
    lambda: libmvt.read(BROKEN),
    lambda: libmvt.judge(BROKEN),
    lambda: libmvt.read("tile"),
    lambda: mend_rows(b"\0"),
    lambda: json_lent(BROKEN),
    lambda: lookalike("tile"),
    lambda: libmvt.read(TILE, most=10),
    lambda: libmvt.extract(TILE, ["water", "nowhere"]),
    lambda: libmvt.read_layer(TILE, "nowhere"),
    refused_of_decoder,
    lambda: libmvt.write(tile_with(geometry=[])),
    lambda: libmvt.write(tile_with(geometry=[(1, 1, 1)])),
    lambda: libmvt.write(tile_with(geometry=[(1 << 31, 1)])),
    lambda: libmvt.write(tile_with(attributes={"k": None})),
    lambda: libmvt.write(tile_with(attributes={"k": "\ud800"})),
    lambda: libmvt.write(tile_with(id=-1)),
    lambda: libmvt.write(tile_with(kind="circles")),
    lambda: libmvt.Builder().layer("a").feature("lines").point(1, 1),
    lambda: ROWS.array("nowhere"),
)
# Made once, since nothing can be made where an allocation is refused.
ERRORS = (libmvt.MvtError, TypeError, OverflowError, AttributeError, ImportError, MemoryError)


def size():
    """The bytes of the process that are in memory."""
    gc.collect()
    return int(Path("/proc/self/statm").read_text().split()[1]) * 4096


def call(each):
    try:
        each()
    except ERRORS:
        pass


class Leaks(unittest.TestCase):
    def grown(self, calls, rounds):
        """How much the process grew in so many rounds, after as many as a tenth of them."""
        for each in calls:
            for _ in range(rounds // 10):
                call(each)
        before = size()
        for each in calls:
            for _ in range(rounds):
                call(each)
        return size() - before

    def test_good_inputs(self):
        self.assertLess(self.grown(GOOD, 100_000 // len(GOOD)), 500_000)

    def test_bad_inputs(self):
        for each in BAD:
            with self.assertRaises(ERRORS):
                each()
        self.assertLess(self.grown(BAD, 100_000 // len(BAD)), 500_000)


@unittest.skipIf(REFUSING is None, "no allocator that refuses")
class Refused(unittest.TestCase):
    def refused(self, allocator, each):
        """The call, once for each allocation that is refused. Answers how many were."""
        count = 0
        while True:
            allocator.allocator_refuse_after(count)
            try:
                each()
            except ERRORS:
                pass
            finally:
                was_refused = allocator.allocator_refuse_none()
            if not was_refused:
                return count
            count += 1

    def test_each_allocation(self):
        allocator = ctypes.CDLL(REFUSING)
        # the number that it would seem to answer were an allocation of Python
        allocator.allocator_refuse_after.argtypes, allocator.allocator_refuse_after.restype = [ctypes.c_long], None
        collects = gc.isenabled()
        for each in GOOD + BAD:
            self.refused(allocator, each)
            before = size()
            self.assertGreater(self.refused(allocator, each), 0)
            self.assertLess(size() - before, 500_000)
            self.assertEqual(gc.isenabled(), collects)
        self.assertEqual(libmvt.read(TILE), WHOLE)
        self.assertEqual(libmvt.write(WHOLE), libmvt.write(ROWS))


if __name__ == "__main__":
    unittest.main(argv=sys.argv[:1])
