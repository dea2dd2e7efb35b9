"""What bytes look like that are no tile, as the library says, and as tests/program/places.py finds by itself; and that each cause
has its sentence. test_cases.py has where faults stand."""

import unittest

import libmvt
import places
from libmvt import LOOKALIKES


class Places(unittest.TestCase):
    def test_what_each_looks_like(self):
        seen = set()
        for name, tile in [*places.NO_TILES.items(), *enumerate(places.in_many_pieces(1000)), (None, b"")]:
            kind = libmvt.looks_like(tile)
            self.assertEqual(kind, places.looks_like(tile), name)
            seen.add(kind)
        self.assertEqual(seen, {None, *LOOKALIKES.values()})

    def test_what_heads_look_like(self):
        for head in places.heads(20_000):
            self.assertEqual(libmvt.looks_like(head), places.looks_like(head), head)

    def test_each_cause_has_its_sentence(self):
        causes = {
            int(cause)
            for cause in places.re.findall(r"^\| (\d+) \|", (places.TOP / "docs/FORMAT.md").read_text(), places.re.M)
        }
        self.assertEqual(set(places.documented()), causes)
