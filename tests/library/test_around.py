"""What there is round a fault, as values of Python."""

import unittest
from pathlib import Path

import libmvt
from libmvt import Bounds, Field, Integer, Path as Drawn, Role, Step

BROKEN = Path(__file__).resolve().parents[2] / "fixtures" / "tiles" / "broken"


def around(name):
    tile = (BROKEN / f"{name}.mvt").read_bytes()
    with unittest.TestCase().assertRaises(libmvt.Refused) as refused:
        libmvt.judge(tile)
    return libmvt.around(tile, refused.exception), refused.exception


class Around(unittest.TestCase):
    def test_a_ring_of_the_wrong_direction(self):
        # the bytes of the tile are in fixtures/tiles/broken/make.py: MoveTo (3, 6), LineTo (8, 12) (20, 34), turned round
        told, fault = around("22-FirstRing")
        self.assertEqual((told.layer, told.feature), (Bounds(0, 2, 22), Bounds(7, 9, 22)))
        self.assertEqual((told.list, told.kind, told.extent), ("geometry", 3, None))
        self.assertEqual(told.geometry[fault.at], Integer(15, 21, 22))
        self.assertEqual(told.steps[fault.at], Step(Role.CLOSE_PATH, 0, 3, 6))
        self.assertEqual(told.paths(fault.at), [Drawn([(20, 34), (8, 12), (3, 6)], False, [3, 6, 8])])
        self.assertEqual(told.paths()[0].is_closed, True)
        self.assertEqual(told.paths(6, 2), [Drawn([(20, 34), (8, 12)], False, [3, 6])])
        self.assertEqual((told.roles[:3], len(told.roles)), (bytes([1, 3, 4]), 9))
        self.assertEqual(told.fields[0], Field(3, 0, Bounds(9, 10, 11)))

    def test_tags(self):
        told, fault = around("15-ValueIndex")
        self.assertEqual((told.list, told.message), ("tags", told.feature))
        self.assertEqual((told.tags[fault.at].start, told.tags[fault.at].end), (fault.start, fault.end))
        self.assertEqual((len(told.keys), len(told.geometry), told.paths()), (1, 0, []))

    def test_a_field_in_no_layer(self):
        told, _ = around("05-WrongType")
        self.assertEqual((told.layer, told.feature, told.list, list(told.keys)), (None, None, None, []))
        self.assertEqual([field.number for field in told.fields], [3])

    def test_rows_are_a_list(self):
        steps = around("22-FirstRing")[0].steps
        self.assertEqual(list(steps), steps[:])
        self.assertEqual(steps[-1], steps[len(steps) - 1])
        self.assertEqual(steps[1:3], [steps[1], steps[2]])
        with self.assertRaises(IndexError):
            steps[len(steps)]

    def test_any_fault_of_any_bytes(self):
        for tile in (b"", b"\x1a", (BROKEN / "22-FirstRing.mvt").read_bytes()):
            for at in (0, 7, 2**64 - 1):
                for index in (None, 0, 9):
                    told = libmvt.around(tile, libmvt.Refused(index, index, at, at % 30, "Name"))
                    self.assertEqual(len(told.steps), len(told.geometry))
        with self.assertRaises(TypeError):
            libmvt.around("a", libmvt.Refused(None, None, 0, 1, "Truncated"))


if __name__ == "__main__":
    unittest.main()
