"""The builder makes the tile that its calls say."""

import unittest
from pathlib import Path

import libmvt


class Building(unittest.TestCase):
    def test_a_point(self):
        builder = libmvt.Builder()
        builder.layer("a").feature("points").point(25, 17)
        known = bytes.fromhex("1A1178020A0161120718012203093222288020")
        self.assertEqual(libmvt.write(builder.rows()), known)
        self.assertEqual(builder.finish(), known)
        self.assertEqual((builder.finish(), libmvt.Builder().finish()), (b"", b""))
        self.assertEqual(builder.layer("a").feature("points").point(25, 17).finish(), known)

    def test_each_geometry(self):
        square, hole = [(0, 0), (8, 0), (8, 8), (0, 8)], [(2, 2), (2, 4), (4, 4), (4, 2)]
        builder = libmvt.Builder()
        builder.layer("town", extent=512)
        builder.feature("polygons", id=2**64 - 1).ring(square, exterior=True).ring(hole, exterior=False)
        builder.ring([(x + 20, y) for x, y in square], exterior=True)
        builder.feature("lines").line([(0, 0), (1, 2)]).line(iter([(3, 3), (4, 4)]))
        builder.feature("points").points([(1, 1), (2, 2)]).point(3, 3).points([])
        builder.feature("unknown").integers([9, 2**32 - 1])
        builder.feature("points").tag("gone", 1).point(9, 9).drop()
        builder.foreign(1, bytes.fromhex("78010A0162"))
        builder.layer("empty")
        tile = libmvt.read(builder.finish())
        moved = [(x + 20, y) for x, y in square]
        wanted = libmvt.Tile(
            [
                libmvt.Layer(
                    "town",
                    512,
                    [
                        libmvt.Feature(2**64 - 1, {}, "polygons", [[square, hole], [moved]]),
                        libmvt.Feature(None, {}, "lines", [[(0, 0), (1, 2)], [(3, 3), (4, 4)]]),
                        libmvt.Feature(None, {}, "points", [(1, 1), (2, 2), (3, 3)]),
                        libmvt.Feature(None, {}, "unknown", [9, 2**32 - 1]),
                    ],
                ),
                libmvt.Foreign(1, bytes.fromhex("78010A0162")),
                libmvt.Layer("empty", 4096, []),
            ]
        )
        self.assertEqual(tile, wanted)

    def test_each_kind_of_value(self):
        """Each language's builder makes the same bytes of values of all kinds, and what was read is what is built."""
        lines = (Path(__file__).resolve().parents[2] / "fixtures/tiles/kinds.hex").read_text().splitlines()
        wanted = bytes.fromhex("".join(line.partition("#")[0] for line in lines))
        values = {
            "s": "x",
            "f": libmvt.Float(2.5),
            "d": 3.5,
            "i": libmvt.Int(-5),
            "p": libmvt.Int(5),
            "u": 5,
            "n": -5,
            "z": libmvt.Sint(5),
            "b": True,
        }
        for attributes in (values, libmvt.read(wanted)["a"].features[0].attributes):
            builder = libmvt.Builder().layer("a").feature("points").point(25, 17)
            for key, value in attributes.items():
                builder.tag(key, value)
            self.assertEqual(builder.finish(), wanted)

    def test_empty_texts_first(self):
        builder = libmvt.Builder().layer("")
        builder.feature("points").tag("", "").point(1, 1)
        tile = libmvt.Tile([libmvt.Layer("", 4096, [libmvt.Feature(None, {"": ""}, "points", [(1, 1)])])])
        self.assertEqual((len(builder.rows().layers), libmvt.read(libmvt.write(tile))), (1, tile))
        self.assertEqual(libmvt.read(builder.finish()), tile)
        with self.assertRaisesRegex(libmvt.NoTile, "layer 0: the layer's bytes"):
            libmvt.Builder().foreign(1, b"").finish()

    def test_keys_and_values_stand_once(self):
        builder = libmvt.Builder().layer("a")
        self.assertEqual([builder.key(key) for key in ("name", "height", "name")], [0, 1, 0])
        values = [
            "x",
            1,
            libmvt.Int(1),
            1.0,
            libmvt.Float(1.0),
            True,
            libmvt.Sint(1),
            0.0,
            -0.0,
            "x",
            True,
            libmvt.Uint(1),
        ]
        self.assertEqual([builder.value(value) for value in values], [0, 1, 2, 3, 4, 5, 6, 7, 8, 0, 5, 1])
        builder.feature("points").tag("name", "y").tag_at(1, 0).point(1, 1)
        self.assertEqual(builder.layer("b").key("height"), 0)
        first, second = builder.rows().layers
        self.assertEqual((first.keys.len, first.values.len, second.keys.len), (2, 10, 1))
        self.assertEqual(libmvt.read(builder.finish())["a"].features[0].attributes, {"name": "y", "height": "x"})

    def test_rows_are_those_of_the_bytes(self):
        """Where keys and values come in the order in which features name them first."""
        builder = libmvt.Builder().layer("roads", extent=512)
        builder.feature("lines", id=7).tag("name", "High Street").tag("lanes", 2).line([(0, 0), (5, 5)])
        builder.feature("polygons").tag("lanes", 2).tag("kind", "x").ring([(0, 0), (8, 0), (8, 8)], exterior=True)
        builder.foreign(1, bytes.fromhex("78010A0162")).layer("b").feature("unknown").tag("kind", 0.5).integers([9, 2])
        rows, read = builder.rows(), libmvt.rows(builder.finish())
        for name in ("layers", "features", "keys", "values", "tags", "parts", "points", "integers", "texts"):
            self.assertEqual(bytes(getattr(rows, name)), bytes(getattr(read, name)), name)

    def test_a_call_out_of_turn(self):
        point = ("point", 1, 1)
        for calls in (
            [("feature", "points")],
            [("key", "k")],
            [("value", 1)],
            [("tag", "k", 1)],
            [("layer", "a"), point],
            [("layer", "a"), ("tag", "k", 1)],
            [("layer", "a"), ("drop",)],
            [("layer", "a"), ("feature", "points"), ("layer", "b"), point],
            [("layer", "a"), ("feature", "lines"), point],
            [("layer", "a"), ("feature", "points"), ("ring", [(1, 1)], True)],
            [("layer", "a"), ("feature", "points"), ("integers", [1])],
        ):
            builder = libmvt.Builder()
            for name, *words in calls[:-1]:
                getattr(builder, name)(*words)
            name, *words = calls[-1]
            with self.assertRaises(libmvt.MvtError, msg=calls):
                getattr(builder, name)(*words)

    def test_a_call_that_raises_changes_nothing(self):
        builder = libmvt.Builder()
        builder.layer("a").feature("points").tag("k", 1).point(25, 17)
        for call in (
            lambda: builder.tag("k2", None),
            lambda: builder.tag(7, 1),
            lambda: builder.points([(1, 1), (1 << 31, 0)]),
            lambda: builder.points([(1, 1), (0.5, 0)]),
            lambda: builder.points(None),
            lambda: builder.feature("circles"),
            lambda: builder.feature("points", id=-1),
            lambda: builder.layer("b", extent=-1),
            lambda: builder.layer(None),
            lambda: builder.foreign(2, b""),
            lambda: builder.tag_at(-1, 0),
            lambda: builder.tag_at(0, 1 << 32),
        ):
            with self.assertRaises((TypeError, libmvt.NoTile)):
                call()
            builder.point(26, 17)
        [feature] = libmvt.read(builder.finish())["a"].features
        self.assertEqual(feature, libmvt.Feature(None, {"k": 1}, "points", [(25, 17)] + [(26, 17)] * 12))

    def test_what_is_no_tile(self):
        with self.assertRaises(libmvt.NoTile):
            libmvt.Builder().layer("a").feature("points").finish()
        with self.assertRaises(libmvt.NoTile) as caught:
            libmvt.Builder().layer("a").layer("a").finish()
        self.assertEqual((caught.exception.layer, caught.exception.feature, caught.exception.cause), (1, None, 19))
        self.assertEqual((caught.exception.rule, caught.exception.part, caught.exception.point), (None, None, None))
        self.assertEqual(str(caught.exception), "layer 1: an earlier layer has the layer's name")

    def test_what_no_commands_draw(self):
        square, turned = [(0, 0), (9, 0), (9, 9), (0, 9)], [(0, 0), (1, 3), (3, 1)]
        lines, polygons = [[(0, 0), (1, 1)], [(2, 2), (3, 3), (3, 3)]], [[turned]]
        for kind, drawn, rule, part, point, said in [
            ("lines", lines, "ZeroSegment", 1, 2, " part 1 point 2: A line goes nowhere"),
            ("lines", [[(1, 1)]], "Count", 0, None, " part 0: The command has a count"),
            ("polygons", polygons, "FirstRing", 0, None, " part 0: The first ring goes the wrong way round"),
            ("polygons", [[square, square]], "InteriorRing", 1, None, " part 1: A hole goes the wrong way round"),
            ("polygons", [[square], [turned]], "ExteriorRing", 1, None, " part 1: A further exterior ring"),
        ]:
            with self.subTest(rule=rule), self.assertRaises(libmvt.NoTile) as caught:
                libmvt.write(libmvt.Tile([libmvt.Layer("a", 4096, [libmvt.Feature(None, {}, kind, drawn)])]))
            why = caught.exception
            self.assertEqual((why.layer, why.feature, why.cause, libmvt.CAUSES[why.rule]), (0, 0, 17, rule))
            self.assertEqual((why.part, why.point), (part, point))
            self.assertTrue(str(why).startswith("layer 0 feature 0" + said), str(why))

    def test_a_builder_begins_anew_after_what_is_no_tile(self):
        builder = libmvt.Builder().layer("a").feature("unknown")
        with self.assertRaises(libmvt.NoTile) as caught:
            builder.feature("lines").line([(1, 1)]).finish()
        self.assertEqual((caught.exception.layer, caught.exception.feature, caught.exception.cause), (0, 1, 17))
        with self.assertRaisesRegex(libmvt.MvtError, "begin a layer first"):
            builder.feature("points")
        self.assertEqual(builder.finish(), b"")


if __name__ == "__main__":
    unittest.main()
