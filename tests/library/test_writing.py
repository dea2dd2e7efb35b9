"""What the Python module writes is the canonical bytes of the tile, and nothing that is none."""

import dataclasses
import unittest
from decimal import Decimal
from fractions import Fraction
from pathlib import Path

import libmvt

TILES = Path(__file__).resolve().parents[2] / "fixtures" / "tiles"
WHOLE = ("gdal", "postgis")
POINT = libmvt.Tile([libmvt.Layer("a", 4096, [libmvt.Feature(None, {}, "points", [(25, 17)])])])


def with_feature(**changed):
    feature = dataclasses.replace(POINT.layers[0].features[0], **changed)
    return libmvt.Tile([dataclasses.replace(POINT.layers[0], features=[feature])])


class Writing(unittest.TestCase):
    def test_rows_give_the_canonical_bytes(self):
        for name in WHOLE:
            canonical = (TILES / (name + ".canonical.mvt")).read_bytes()
            self.assertEqual(libmvt.write(libmvt.rows((TILES / (name + ".mvt")).read_bytes())), canonical)

    def test_what_is_written_reads_back(self):
        for name in WHOLE:
            tile = libmvt.read((TILES / (name + ".mvt")).read_bytes())
            self.assertEqual(libmvt.read(libmvt.write(tile)), tile)
            self.assertEqual(libmvt.write(tile), (TILES / (name + ".canonical.mvt")).read_bytes())

    def test_a_point_made_by_hand(self):
        known = "1A1178020A0161120718012203093222288020"
        self.assertEqual(libmvt.write(POINT), bytes.fromhex(known))
        self.assertEqual(libmvt.write(libmvt.Tile([])), b"")

    def test_values_keep_their_kind(self):
        attributes = {
            "a": True,
            "b": libmvt.Uint(1),
            "c": libmvt.Sint(-1),
            "d": 1.0,
            "e": "1",
            "f": libmvt.Float(0.0),
            "g": -0.0,
            "h": libmvt.Uint((1 << 64) - 1),
            "i": libmvt.Int(1),
            "j": libmvt.Int(-(1 << 63)),
            "k": libmvt.Sint(1),
            "l": libmvt.Float(bits=0xFFA00001),
        }
        feature = libmvt.read(libmvt.write(with_feature(id=7, attributes=attributes))).layers[0].features[0]
        kinds = [(key, type(value), repr(value)) for key, value in attributes.items()]
        self.assertEqual([(key, type(value), repr(value)) for key, value in feature.attributes.items()], kinds)
        self.assertEqual((feature.id, feature.attributes["l"].bits), (7, 0xFFA00001))

    def test_numbers_of_pythons_own(self):
        feature = (
            libmvt.read(libmvt.write(with_feature(attributes={"a": 0, "b": -5, "c": 2**64 - 1})))
            .layers[0]
            .features[0]
        )
        self.assertEqual(
            [type(value) for value in feature.attributes.values()], [libmvt.Uint, libmvt.Sint, libmvt.Uint]
        )
        self.assertEqual(feature.attributes, {"a": 0, "b": -5, "c": 2**64 - 1})

    def test_numbers_of_numpy(self):
        try:
            import numpy
        except ImportError:
            self.skipTest("numpy isn't there")
        given = {
            "single": numpy.float32(12.75),
            "half": numpy.float16(1.5),
            "double": numpy.float64(0.1),
            "no": numpy.bool_(False),
            "yes": numpy.bool_(True),
            "byte": numpy.uint8(200),
            "below": numpy.int16(-3),
            "most": numpy.uint64(2**64 - 1),
            "text": numpy.str_("Mill"),
        }
        numbers = [libmvt.Float(12.75), libmvt.Float(1.5), 0.1, False, True]
        wanted = [*numbers, libmvt.Uint(200), libmvt.Sint(-3), libmvt.Uint(2**64 - 1), "Mill"]
        feature = libmvt.read(libmvt.write(with_feature(attributes=given))).layers[0].features[0]
        told = [(type(value), value) for value in feature.attributes.values()]
        self.assertEqual(told, [(type(value), value) for value in wanted])
        quiet = numpy.array([0x7FC00123], dtype="<u4").view("<f4")[0]
        feature = libmvt.read(libmvt.write(with_feature(attributes={"k": quiet}))).layers[0].features[0]
        self.assertEqual(feature.attributes["k"].bits, 0x7FC00123)
        with self.assertRaisesRegex(TypeError, "layer 'a', feature 0, key 'k': numpy.*longdouble|float128"):
            libmvt.write(with_feature(attributes={"k": numpy.longdouble(1.5)}))
        of_numpy = with_feature(geometry=numpy.array([[25, 17]]), id=numpy.int8(7))
        self.assertEqual(libmvt.write(of_numpy), libmvt.write(with_feature(id=7)))
        with self.assertRaisesRegex(TypeError, "layer 'a', feature 0, geometry: .*float"):
            libmvt.write(with_feature(geometry=numpy.array([[25.0, 17.0]])))

    def test_changes_no_number(self):
        for value, kind in (
            (Decimal("9.99"), "decimal.Decimal"),
            (Fraction(1, 2), "fractions.Fraction"),
            (None, "NoneType"),
            (b"text", "bytes"),
            ([1], "list"),
        ):
            with self.assertRaises(TypeError) as caught:
                libmvt.write(with_feature(attributes={"name": "a", "height": value}))
            told = "layer 'a', feature 0, key 'height': %s is no text, number or truth that a tile can hold" % kind
            self.assertEqual(str(caught.exception), told)

    def test_names_the_place(self):
        layer = POINT.layers[0]
        half = libmvt.Feature(None, {}, "points", [(0.5, 1)])
        second = dataclasses.replace(layer, name="b", features=[layer.features[0]] * 2 + [half])
        for tile, error, told in (
            (libmvt.Tile([layer, second]), TypeError, "layer 'b', feature 2, geometry: 'float' object"),
            (with_feature(geometry=[(1 << 31, 0)]), OverflowError, "layer 'a', feature 0, geometry: "),
            (with_feature(geometry=[(1, 2, 3)]), TypeError, "layer 'a', feature 0, geometry: a point isn't a pair"),
            (
                with_feature(geometry=[(1, 2, 3), (4,)]),
                TypeError,
                "layer 'a', feature 0, geometry: a point isn't a pair",
            ),
            (
                with_feature(kind="unknown", geometry=[1 << 32]),
                OverflowError,
                "layer 'a', feature 0, geometry: 4294967296",
            ),
            (
                with_feature(attributes={"k": 1 << 64}),
                OverflowError,
                "layer 'a', feature 0, key 'k': 18446744073709551616",
            ),
            (with_feature(attributes={7: 1}), TypeError, "layer 'a', feature 0, key 7: int is no text"),
            (
                with_feature(attributes={"k": "\ud800"}),
                libmvt.NoTile,
                "layer 'a', feature 0, key 'k': a text isn't UTF-8",
            ),
            (with_feature(id=-1), OverflowError, "layer 'a', feature 0, id: -1 is out of range"),
            (with_feature(id="7"), TypeError, "layer 'a', feature 0, id: 'str' object"),
            (with_feature(kind="circles"), libmvt.NoTile, "layer 'a', feature 0: 'circles' is no kind"),
            (
                libmvt.Tile([dataclasses.replace(layer, extent=1 << 32)]),
                OverflowError,
                "layer 'a': 4294967296 is out of range",
            ),
            (libmvt.Tile([dataclasses.replace(layer, name=b"a")]), TypeError, "layer b'a': bytes is no text"),
            (libmvt.Tile([libmvt.Foreign(-1, b"")]), OverflowError, "layer of version -1: -1 is out of range"),
        ):
            with self.assertRaises(error) as caught:
                libmvt.write(tile)
            self.assertEqual(str(caught.exception)[: len(told)], told)
            if error is OverflowError:
                self.assertIsInstance(caught.exception, libmvt.NoTile)

    def test_refuses_what_is_no_tile(self):
        layer = POINT.layers[0]
        for tile in (
            libmvt.Tile([layer, layer]),
            libmvt.Tile([libmvt.Foreign(2, b"")]),
            libmvt.Tile([libmvt.Foreign(1, b"\xff")]),
            libmvt.Tile([dataclasses.replace(layer, extent=1 << 32)]),
            with_feature(id=-1),
            with_feature(id=1 << 64),
            with_feature(attributes={"k": 1 << 64}),
            with_feature(attributes={"k": -(1 << 63) - 1}),
            with_feature(attributes={"k": libmvt.Uint(-1)}),
            with_feature(attributes={"k": libmvt.Int(1 << 63)}),
            with_feature(attributes={"k": "\ud800"}),
            with_feature(geometry=[]),
            with_feature(geometry=[(1 << 31, 0)]),
            with_feature(geometry=[(-(1 << 31), 0)]),
            with_feature(kind="lines", geometry=[[(1, 1)]]),
            with_feature(kind="polygons", geometry=[[]]),
            with_feature(kind="circles"),
        ):
            with self.assertRaises(libmvt.NoTile):
                libmvt.write(tile)


if __name__ == "__main__":
    unittest.main()
