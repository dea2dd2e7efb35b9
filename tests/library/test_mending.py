"""Tiles that are mended, and what is told of the changes."""

import pickle
import unittest
from pathlib import Path

import libmvt
from libmvt.raw import change_of

TILES = Path(__file__).resolve().parents[2] / "fixtures" / "tiles"


def broken(name):
    return (TILES / "broken" / f"{name}.mvt").read_bytes()


def line_of(*steps):
    """The layer `a` with a line of LineTo steps from (2, 3), each below 64."""
    spelled = bytes([9, 4, 6, len(steps) << 3 | 2, *(2 * each for step in steps for each in step)])
    feature = bytes([0x18, 2, 0x22, len(spelled)]) + spelled
    return bytes([0x1A, 7 + len(feature), 0x78, 2, 0x0A, 1, 0x61, 0x12, len(feature)]) + feature


def refused_by(call, tile):
    try:
        call(tile)
    except libmvt.Refused as fault:
        return fault
    raise AssertionError("it isn't refused")


def varint(number):
    groups = [number & 127]
    while number := number >> 7:
        groups.append(number & 127)
    return bytes(group | 128 for group in groups[:-1]) + bytes(groups[-1:])


class Mending(unittest.TestCase):
    def test_a_ring_is_turned(self):
        """The ring (20, 34), (8, 12), (3, 6) of negative area."""
        wanted = (
            libmvt.Builder().layer("a").feature("polygons").ring([(20, 34), (3, 6), (8, 12)], exterior=True).finish()
        )
        made, changes = libmvt.mend(broken("22-FirstRing"))
        self.assertEqual((made, changes), (wanted, [libmvt.Change("TurnedRing", 0, 0, 0)]))
        self.assertEqual(str(changes[0]), "layer 0 feature 0: TurnedRing 0")

    def test_repeated_points_are_left_out(self):
        wanted = libmvt.Builder().layer("a").feature("lines").line([(2, 3), (2, 7), (4, 7)]).finish()
        told = libmvt.mend(line_of((0, 0), (0, 4), (0, 0), (0, 0), (2, 0)))
        self.assertEqual(told, (wanted, [libmvt.Change("RepeatedPoint", 0, 0, 0, 3)]))
        self.assertEqual(str(told.changes[0]), "layer 0 feature 0: RepeatedPoint 0 count 3")

    def test_a_feature_is_left_out(self):
        told = libmvt.mend(bytearray(broken("20-ZeroSegment")))
        self.assertEqual(told.bytes, libmvt.Builder().layer("a").finish())
        self.assertEqual(list(map(str, told.changes)), ["layer 0 feature 0: FeatureLeftOut count 2"])

    def test_another_rule_is_broken_too(self):
        """A ZeroSegment, and behind it a layer without a name: the fault is the first one."""
        with self.assertRaises(libmvt.Refused) as told:
            libmvt.mend(broken("20-ZeroSegment") + bytes.fromhex("1a027802"))
        self.assertEqual((told.exception.name, told.exception.layer), ("ZeroSegment", 0))

    def test_a_fault_says_whether_mending_helps(self):
        """A line to the layer `a`, which repeats a point; the same and behind it a layer without a name, which nothing mends."""
        for tile, helps in ((broken("22-FirstRing"), True), (line_of((0, 0)), True), (broken("10-NoName"), False),
                            (broken("22-FirstRing") + bytes.fromhex("1a027802"), False)):  # fmt: skip
            for call in (libmvt.judge, libmvt.read, libmvt.rows, libmvt.rewrite, libmvt.lint, libmvt.to_json):
                fault = refused_by(call, bytearray(tile))
                self.assertEqual(str(fault).endswith(": mvt mend mends this"), helps)
                self.assertEqual((fault.can_be_mended, fault.hint), (helps, "mvt mend mends this" if helps else ""))
        self.assertFalse(refused_by(libmvt.mend, broken("22-FirstRing") + bytes.fromhex("1a027802")).can_be_mended)

    def test_rings_that_cross_are_not_mended(self):
        """Two exteriors of negative area, which overlap by half."""
        rings = [9, 0, 0, 26, 0, 40, 40, 0, 0, 39, 15, 9, 19, 20, 26, 0, 40, 40, 0, 0, 39, 15]
        feature = bytes([0x18, 3, 0x22, len(rings), *rings])
        tile = bytes([0x1A, 7 + len(feature), 0x78, 2, 0x0A, 1, 0x61, 0x12, len(feature)]) + feature
        fault = refused_by(libmvt.judge, tile)
        self.assertEqual((fault.name, fault.can_be_mended, fault.hint), ("FirstRing", False, ""))

    def test_a_decoder_does_not_know_whether_mending_helps(self):
        def decoded(tile):
            decoder = libmvt.Decoder()
            decoder.feed(tile)
            decoder.finish()

        fault = refused_by(decoded, broken("22-FirstRing"))
        self.assertEqual((fault.name, fault.can_be_mended, fault.hint), ("FirstRing", False, ""))

    def test_a_pickled_fault_says_the_same_without_its_tile(self):
        """Behind the broken layer a layer of version 1, which is carried as it is."""
        for large, helps in ((90_000, True), (110_000, False)):
            body = b"\x78\x01\x0a\x01b" + varint(20 << 3 | 2) + varint(large) + bytes(large)
            fault = refused_by(libmvt.judge, broken("22-FirstRing") + b"\x1a" + varint(len(body)) + body)
            spelled = pickle.dumps(fault)
            twin = pickle.loads(spelled)
            self.assertLess(len(spelled), 2_000)
            self.assertEqual((str(twin), twin.can_be_mended), (str(fault), helps))
            self.assertEqual((fault.hint != "", fault.can_be_mended, fault.hint != ""), (helps, True, True))

    def test_the_text_of_changes(self):
        self.assertEqual(str(change_of((3, 1, 2, 4, 5, 0))), "layer 1 feature 2: PartLeftOut 4 count 5")
        self.assertEqual(str(change_of((5, 1, 2, 4, 0, 3))), "layer 1 feature 2: MovedRing 4 to 3")
        self.assertEqual(change_of((4, 1, 2, 0, 6, 0)), libmvt.Change("FeatureLeftOut", 1, 2, count=6))

    def test_what_is_no_tile(self):
        for given in ("tile.mvt", None, 7):
            with self.assertRaises(TypeError):
                libmvt.mend(given)


if __name__ == "__main__":
    unittest.main()
