"""What differs first of a tile's canonical form: tiles by hand, of a layer with a version, a name and a feature."""

import re
import unittest

import libmvt
from mvt_tools.page.differ import first_difference
from serving import TILES
from wire import field

VERSION, NAME = bytes([0x78, 2]), bytes([0x0A, 1, 0x61])


def layer(*fields):
    return field(3, b"".join(fields))


def feature(*fields):
    return field(2, b"".join(fields))


class Differs(unittest.TestCase):
    def check(self, old, made, at, trail, words):
        found = first_difference(old, made)
        self.assertEqual((found["at"], "/".join(str(step["name"]) for step in found["trail"])), (at, trail))
        self.assertIn(words, found["said"])

    def test_fields(self):
        self.assertIsNone(first_difference(layer(VERSION, NAME), layer(VERSION, NAME)))
        self.check(
            layer(NAME, VERSION), layer(VERSION, NAME), 2, "layer/name", "Here stands the field name (1), and in the"
        )
        typed = [layer(VERSION, NAME, feature(bytes([0x18, kind]))) for kind in (1, 2)]
        self.check(*typed, 9, "layer/feature/type", "its byte is 01 here and 02 in the canonical form")
        self.check(layer(VERSION), layer(VERSION, NAME), 3, "layer", "The field name (1) is missing here")
        unknown = bytes([0x30, 1])
        wanted = "Here stands the unknown field 6, and in the canonical form the field version (15)."
        self.check(layer(unknown, VERSION), layer(VERSION), 2, "layer/None", wanted)
        wanted = "Here stands the unknown field 6, and the canonical form has nothing more there."
        self.check(layer(unknown), layer(), 2, "layer/None", wanted)
        self.check(bytes([0x1A, 0x82, 0, 0x78, 2]), layer(VERSION), 0, "layer", "more bytes than it needs")
        self.check(
            layer(NAME) + layer(NAME), layer(NAME) + layer(VERSION), 7, "layer/name", "Here stands the field name"
        )
        values = [layer(VERSION, field(4, bytes([0x28, number]))) for number in (3, 4)]
        self.check(*values, 6, "layer/value/uint", "its byte is 03 here and 04")

    def test_integers(self):
        def tagged(*tags):
            return layer(VERSION, feature(field(2, bytes([0, 0])), field(4, bytes(tags))))

        self.check(
            tagged(9, 2, 4),
            tagged(9, 2, 6),
            14,
            "layer/feature/geometry",
            "has 4 at index 2, and the canonical form 6.",
        )
        self.check(
            tagged(9, 2, 4),
            tagged(9, 2),
            14,
            "layer/feature/geometry",
            "more integers than in the canonical form, from index 2 on",
        )
        self.check(
            tagged(9, 2), tagged(9, 2, 4), 10, "layer/feature/geometry", "fewer integers than in the canonical form: 2."
        )
        self.check(
            tagged(9, 0x82, 0), tagged(9, 2), 13, "layer/feature/geometry", "spelled with more bytes than they need"
        )

    def test_the_example_tiles(self):
        for file in sorted(TILES.glob("*.mvt")):
            tile = file.read_bytes()
            found, made = first_difference(tile, libmvt.rewrite(tile)), libmvt.rewrite(tile)
            self.assertEqual(found is None, tile == made, file)
            if found is not None:
                self.assertTrue(0 <= found["at"] < len(tile), file)
                self.assertIsNone(re.search("None|unknown field -", found["said"]), file)


if __name__ == "__main__":
    unittest.main()
