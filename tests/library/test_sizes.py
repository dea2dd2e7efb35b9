"""The library's calls on tiles of the sizes at which code could turn, by the Python module: with ample memory each answers.

tests/program/sizes.py makes the tiles, their canonical bytes and their JSON by itself.
"""

import json
import sys
import unittest
from pathlib import Path

import libmvt
from libmvt.raw import measured
from shown import shown

sys.path.insert(0, str(Path(__file__).resolve().parents[1] / "program"))

import sizes  # noqa: E402


def decoded(tile):
    """A tile in pieces of seven bytes."""
    decoder = libmvt.Decoder()
    for at in range(0, len(tile), 7):
        decoder.feed(tile[at : at + 7])
    return decoder.finish()


class Sizes(unittest.TestCase):
    def test_each_call_answers(self):
        for name, layers in sizes.tiles():
            with self.subTest(name):
                self.answers(layers)

    def answers(self, layers):
        fields = [sizes.field(3, sizes.payload_of(it)) for it in layers]
        tile = b"".join(fields)
        read = libmvt.read(tile)
        self.assertEqual(shown(read), {"layers": layers})
        self.assertEqual(shown(decoded(tile)), {"layers": layers})
        self.assertEqual(libmvt.write(read), tile)
        self.assertEqual(libmvt.rewrite(tile), tile)
        self.assertEqual(json.loads(libmvt.to_json(tile)), {"layers": layers})
        self.assertEqual(libmvt.to_svg(tile).count("<path "), sum(len(it.get("features", [])) for it in layers))
        self.assertTrue(libmvt.report(tile).startswith("ok layers %d " % len(layers)))
        libmvt.judge(tile)
        named = [(it["name"], bytes) for it, bytes in zip(layers, fields) if "name" in it]
        wanted = b"".join(bytes for _, bytes in named)
        self.assertEqual(libmvt.extract(tile, [name for name, _ in named]), wanted)

    def test_as_many_canonical_bytes_as_the_limit(self):
        """A layer's extent isn't there, so the canonical bytes are three more than these."""
        full = bytes.fromhex("1af8ffff1f78020af1ffff1f") + b"a" * 67_108_849
        self.assertEqual(len(libmvt.rewrite(full)), 67_108_864)
        self.assertEqual(len(libmvt.write(libmvt.read(full))), 67_108_864)
        over = bytes.fromhex("1af9ffff1f78020af2ffff1f") + b"a" * 67_108_850
        for call in (libmvt.rewrite, lambda tile: libmvt.write(libmvt.read(tile))):
            with self.assertRaises(libmvt.TooLarge):
                call(over)


class Measured(unittest.TestCase):
    def test_of_long_names_the_first_letters_are_told(self):
        """Those of 200 bytes, and a mark."""
        for letter, before, whole in (
            ("a", "", 200),
            ("é", "", 100),
            ("é", "a", 99),
            ("€", "", 66),
            ("€", "ab", 66),
            ("\U0001f600", "", 50),
        ):
            for more in (0, 1, 2, 100_000):
                with self.subTest(letter=letter, more=more):
                    name = before + letter * (whole + more)
                    told = before + letter * whole + "…" if len(name.encode()) > 200 else name
                    builder = libmvt.Builder().layer(name).feature("points").tag(name, 1).point(1, 1)
                    tile = builder.finish()
                    [(layer, features, size, _, [(key, _)])] = measured(tile)
                    self.assertEqual((layer, key, features, size), (told, told, 1, len(tile)))


if __name__ == "__main__":
    unittest.main()
