"""What is Python of the module: its objects, errors, buffers and arrays, and what it says of tiles made here; test_cases.py has
what the program says of tiles. The program is $MVT. Numbers at their ends are spelled here, as the specification spells them.
"""

import copy
import dataclasses
import gc
import gzip
import importlib
import importlib.util
import inspect
import io
import os
import pickle
import re
import struct
import subprocess
import sys
import traceback
import unittest
import warnings
import zlib
from concurrent.futures import ThreadPoolExecutor
from pathlib import Path
from xml.etree import ElementTree

import libmvt
from libmvt import FINDINGS, NOTES, cause_text, finding_text, note_text
from shown import shown_value

sys.path.insert(0, str(Path(__file__).resolve().parents[1] / "program"))

from wire import field, packed, varint, zigzag  # noqa: E402

TILES = Path(__file__).resolve().parents[2] / "fixtures" / "tiles"
WHOLE = ("gdal", "postgis")
SVG = "{http://www.w3.org/2000/svg}"
LISTS = ("layers", "features", "keys", "values", "tags", "parts", "points", "integers", "texts")
CALLS = (
    libmvt.judge,
    libmvt.lint,
    libmvt.read,
    libmvt.rows,
    libmvt.report,
    libmvt.rewrite,
    libmvt.survey,
    libmvt.to_json,
    libmvt.to_svg,
)


def tile(name):
    return (TILES / name).read_bytes()


def broken(name):
    return tile(f"broken/{name}.mvt")


def told(row):
    """A row as numpy tells it."""
    if isinstance(row, int):
        return row
    return tuple(told(getattr(row, name)) for name, _ in row._fields_)


def zigzags(*numbers):
    return packed(map(zigzag, numbers))


class Names(unittest.TestCase):
    def test_each_public_class_and_call_says_what_it_is(self):
        for module in map(importlib.import_module, ("libmvt", "libmvt.raw", "libmvt.geojson", "libmvt.mercator")):
            self.assertEqual(sorted(set(module.__all__)), sorted(module.__all__))
            for name in module.__all__:
                if name == "Frame" and importlib.util.find_spec("numpy") is None:
                    continue
                of = getattr(module, name)
                if isinstance(of, type) or inspect.isroutine(of):
                    self.assertTrue(inspect.getdoc(of), f"{module.__name__}.{name}")

    def test_a_name_that_is_none(self):
        with self.assertRaisesRegex(AttributeError, "module 'libmvt' has no attribute 'Frames'"):
            libmvt.Frames


class WholeTiles(unittest.TestCase):
    def test_reports_what_the_program_reports(self):
        triangle = varint(9) + zigzags(0, 0) + varint(26) + zigzags(4, 0, 0, 4, -4, -4) + varint(15)
        flat = varint(9) + zigzags(0, 0) + varint(18) + zigzags(4, 4, 2, 2) + varint(15)
        features = [field(2, field(1, id) + field(3, 3) + field(4, triangle + flat)) for id in (7, 8, 7)] + [
            field(2, field(1, 7) + field(3, 1) + field(4, varint(9) + zigzags(1, 1)))
        ]
        whole = [
            field(3, field(15, 2) + field(1, b"a") + b"".join(features)),
            field(3, field(15, 1) + field(1, b"b")),
            field(3, field(15, 2) + field(1, b"c")),
        ]
        made = [b"", b"".join(whole)]
        for of in made:
            told = subprocess.run(
                [os.environ["MVT"], "check"], input=of, capture_output=True, check=True
            ).stdout.decode()
            self.assertEqual((libmvt.report(of), str(libmvt.report(of))), (told, told))
            survey = libmvt.survey(of)
            first = (
                f"ok layers {survey.layers} features {survey.features} canonical {'yes' if survey.canonical else 'no'}"
            )
            self.assertEqual([first] + [f"note {note}" for note in survey.notes], told.splitlines())
            self.assertIsNone(libmvt.judge(of))
        self.assertEqual(len(libmvt.report(made[1]).splitlines()), 11)

    def test_a_report_has_numbers_and_notes(self):
        flat = varint(9) + zigzags(0, 0) + varint(18) + zigzags(4, 4, 2, 2) + varint(15)
        triangle = varint(9) + zigzags(0, 0) + varint(26) + zigzags(4, 0, 0, 4, -4, -4) + varint(15)
        features = [field(2, field(1, 7) + field(3, 3) + field(4, triangle + flat)) for _ in range(2)]
        layers = [field(15, 2) + field(1, b"a") + b"".join(features), field(15, 1), field(15, 2) + field(1, b"c")]
        told = libmvt.report(b"".join(field(3, layer) for layer in layers))
        self.assertEqual((told.layers, told.features, told.canonical), (3, 2, False))
        self.assertCountEqual(
            told.notes,
            [
                libmvt.Note("RepeatedId", layer=0, feature=1, earlier=0),
                libmvt.Note("ClosedTwice", layer=0, feature=0, ring=0),
                libmvt.Note("ClosedTwice", layer=0, feature=1, ring=0),
                libmvt.Note("FlatRing", layer=0, feature=0, ring=1),
                libmvt.Note("FlatRing", layer=0, feature=1, ring=1),
                libmvt.Note("Foreign", layer=1, version=1),
                libmvt.Note("NoFeatures", layer=2),
            ],
        )
        none = libmvt.report(b"")
        self.assertEqual(
            (none.layers, none.features, none.canonical, none.notes), (0, 0, True, [libmvt.Note("NoLayers")])
        )
        self.assertTrue(
            repr(none).startswith("Report(layers=0, features=0, canonical=True, notes=[Note(kind='NoLayers'")
        )
        self.assertEqual(pickle.loads(pickle.dumps(told)).notes, told.notes)
        many = libmvt.report(b"".join(field(3, field(15, 2) + field(1, b"%d" % n)) for n in range(1000)))
        self.assertEqual((len(many.notes), len(repr(many))), (1000, 1000))

    def test_a_name_is_no_tile(self):
        for call in CALLS + (
            libmvt.Decoder().feed,
            lambda name: libmvt.extract(name, []),
            lambda name: libmvt.read_layer(name, "a"),
        ):
            for name in ("town.mvt", Path("town.mvt")):
                with self.assertRaisesRegex(TypeError, r"^this takes the bytes of a tile, not its name: open"):
                    call(name)
            for other in (None, 7, ["a"], io.BytesIO(b"")):
                with self.assertRaisesRegex(TypeError, "bytes-like object is required"):
                    call(other)

    def test_lints_what_the_program_lints(self):
        far = field(2, field(3, 1) + field(4, varint(9) + zigzags(20000, -7)))
        large = field(
            2, field(1, 2**53) + field(2, varint(0) + varint(0)) + field(3, 1) + field(4, varint(9) + zigzags(1, 1))
        )
        unknown = field(2, b"") + field(2, field(4, varint(7)))
        entries = field(3, b"n") + field(4, field(4, 2**64 - 2**53))
        found = field(3, field(15, 2) + field(1, b"a") + far + large + unknown + entries) + field(
            3, field(15, 2) + field(1, b"b") + field(5, 0)
        )
        self.assertEqual(
            libmvt.lint(found),
            [
                libmvt.Finding("FarPoint", 0, 0, None, (20000, -7)),
                libmvt.Finding("LargeId", 0, 1),
                libmvt.Finding("LargeNumber", 0, 1, 0),
                libmvt.Finding("NoGeometry", 0, 2),
                libmvt.Finding("UnknownGeometry", 0, 3),
                libmvt.Finding("ZeroExtent", 1),
            ],
        )
        self.assertEqual(
            "; ".join(map(str, libmvt.lint(found))),
            "FarPoint layer 0 feature 0 position 20000 -7; LargeId layer 0 feature 1; "
            "LargeNumber layer 0 feature 1 attribute 0; NoGeometry layer 0 feature 2; UnknownGeometry layer 0 feature 3; ZeroExtent layer 1",
        )

    def test_notes_and_findings_mean_what_the_document_says(self):
        document = (TILES.parent.parent / "docs" / "PROGRAM.md").read_text()
        notes = re.findall(r"^\| `note (\w+).*` \| (.*) \|$", document, re.MULTILINE)
        self.assertEqual([kind for kind, _ in notes], list(NOTES.values()))
        for kind, when in notes:
            self.assertEqual(libmvt.Note(kind).explanation.lower(), f"{when}.".lower())
        findings = re.findall(r"^\| `lint (\w+).*?` \| (.*) \| (.*) \|$", document, re.MULTILINE)
        self.assertEqual([kind for kind, *_ in findings], list(FINDINGS.values()))
        for kind, when, happens in findings:
            self.assertEqual(libmvt.Finding(kind, 0).explanation.lower(), f"{when}. {happens}.".lower())

    def test_causes_are_those_of_the_document(self):
        document = (TILES.parent.parent / "docs" / "FORMAT.md").read_text()
        rules = re.findall(r"^\| (\d+) \| (\w+) \|", document, re.MULTILINE)
        of_rows = [(number, name) for name, number in re.findall(r"^\| (\w+) \| (\d+) \|", document, re.MULTILINE)]
        self.assertEqual({int(number): name for number, name in rules + of_rows}, libmvt.CAUSES)
        self.assertEqual([cause_text(number)[-1] for number in libmvt.CAUSES], ["."] * len(libmvt.CAUSES))
        self.assertEqual(
            [text(99) for text in (cause_text, note_text, finding_text)],
            ["no cause of this library", "no note of this library", "no finding of this library"],
        )
        self.assertEqual(libmvt.LIMIT, 2**26)

    def test_draws(self):
        for name in WHOLE:
            root = ElementTree.fromstring(libmvt.to_svg(tile(name + ".mvt")))
            names = [layer.find(SVG + "title").text for layer in root.findall(SVG + "svg")]
            self.assertEqual(names, ["places", "roads", "water"])

    def test_extracts_in_the_order_of_the_tile(self):
        picked = libmvt.read(libmvt.extract(tile("gdal.mvt"), ["water", "roads", "water"]))
        self.assertEqual([layer.name for layer in picked.layers], ["roads", "water"])
        self.assertEqual(libmvt.extract(tile("gdal.mvt"), []), b"")
        for missing in (libmvt.NoLayer, KeyError, libmvt.MvtError):
            with self.assertRaises(missing) as caught:
                libmvt.extract(tile("gdal.mvt"), ["water", "rail", "nowhere"])
            self.assertEqual(caught.exception.name, "rail")
            self.assertEqual(str(caught.exception), "no layer of version 2 has the name 'rail'")
        with self.assertRaises(TypeError):
            libmvt.extract(tile("gdal.mvt"), "water")

    def test_carries_other_versions(self):
        # A layer of version 1 named a.
        self.assertEqual(
            libmvt.read(bytes.fromhex("1A0578010A0161")).layers, [libmvt.Foreign(1, bytes.fromhex("78010A0161"))]
        )

    def test_finds_layers_by_name(self):
        foreign = bytes.fromhex("1A0578010A0161")
        whole = libmvt.read(foreign + tile("gdal.mvt"))
        self.assertEqual([layer.version for layer in whole], [1, 2, 2, 2])
        self.assertEqual([layer.name for layer in whole.layers if layer.version == 2], ["places", "roads", "water"])
        self.assertIs(whole["water"], whole.layers[3])
        self.assertIs(whole.layer("water"), whole["water"])
        self.assertEqual(("water" in whole, "a" in whole, 0 in whole), (True, False, False))
        self.assertIsNone(whole.layer("a"))
        with self.assertRaisesRegex(libmvt.NoLayer, "no layer of version 2 has the name 'a'"):
            whole["a"]
        self.assertEqual(pickle.loads(pickle.dumps(libmvt.NoLayer("a"))).name, "a")

    def test_how_many_there_are(self):
        whole = libmvt.read(tile("gdal.mvt"))
        self.assertEqual([(layer.name, len(layer)) for layer in whole], [("places", 3), ("roads", 2), ("water", 2)])
        self.assertEqual((len(whole), len(libmvt.Tile([]))), (3, 0))
        self.assertEqual([feature for feature in whole["roads"]], whole["roads"].features)
        self.assertTrue(libmvt.Layer("a", 4096, []) and libmvt.Tile([]))

    def test_a_repr_fits_on_a_screen(self):
        point = libmvt.Feature(7, {"name": "Mill Pond", "n": libmvt.Int(-5)}, "points", [(1, 2)])
        few = libmvt.Tile([libmvt.Layer("a", 4096, [point]), libmvt.Foreign(1, b"x"), libmvt.Layer("b", 1, [])])
        wanted = (
            "Tile(layers=[Layer(name='a', extent=4096, features=[Feature(id=7, attributes={'name': 'Mill Pond', 'n': -5}, "
            "kind='points', geometry=[(1, 2)])]), Foreign(version=1, bytes=b'x'), Layer(name='b', extent=1, features=[])])"
        )
        self.assertEqual(repr(few), wanted)
        many = libmvt.Layer("a", 4096, [point] * 100_000)
        long = libmvt.Feature(None, {"k": "x" * 10_000_000}, "points", [(1, 1)] * 1_000_000)
        for large in (
            many,
            libmvt.Tile([many] * 9),
            long,
            libmvt.Foreign(1, bytes(10_000_000)),
            libmvt.Tile([libmvt.Layer("x" * 9999, 1, [])]),
        ):
            self.assertEqual((len(repr(large)), repr(large)[-1]), (1000, "…"))
        self.assertTrue(repr(many).startswith(wanted[13:120]))

    def test_features_compare_print_and_copy(self):
        spelled = b"\x15" + struct.pack("<I", 0x7FC00001)
        feature = field(2, field(2, b"\0\0") + field(3, 1) + field(4, varint(9) + varint(2) * 2))
        layer = field(15, 2) + field(1, b"a") + feature + field(3, b"k") + field(4, spelled)
        one, other = (libmvt.read(field(3, layer))["a"].features[0] for _ in range(2))
        self.assertEqual(one, other)
        self.assertEqual(repr(one), "Feature(id=None, attributes={'k': nan}, kind='points', geometry=[(1, 1)])")
        for twin in (copy.copy(one), copy.deepcopy(one), pickle.loads(pickle.dumps(one, 0))):
            self.assertEqual(twin, one)
            self.assertEqual(twin.attributes["k"].bits, 0x7FC00001)
        for changed in ({"id": 1}, {"attributes": {"k": 1}}, {"attributes": {}}, {"kind": "lines"}, {"geometry": []}):
            self.assertNotEqual(dataclasses.replace(one, **changed), one)

    def test_takes_pieces(self):
        for name in WHOLE:
            whole = tile(name + ".mvt")
            for size in (1, 7, 4096):
                decoder = libmvt.Decoder()
                for at in range(0, len(whole), size):
                    decoder.feed(memoryview(whole)[at : at + size])
                self.assertEqual(decoder.finish(), libmvt.read(whole))
                with self.assertRaisesRegex(libmvt.MvtError, "finished"):
                    decoder.feed(b"")
        libmvt.Decoder()

    def test_takes_what_holds_bytes(self):
        whole = tile("gdal.mvt")
        for held in (bytearray(whole), memoryview(whole), memoryview(b"-" + whole)[1:]):
            self.assertEqual(libmvt.read(held), libmvt.read(whole))
        for other in ("tile", 3, None):
            with self.assertRaises(TypeError):
                libmvt.read(other)


class Ends(unittest.TestCase):
    def test_no_bytes(self):
        self.assertEqual(libmvt.read(b""), libmvt.Tile([]))
        self.assertEqual(libmvt.rewrite(b""), b"")
        self.assertEqual(libmvt.to_json(b""), '{"layers":[]}')
        for name in ("layers", "points", "texts"):
            self.assertEqual(len(getattr(libmvt.rows(b""), name)), 0)

    def test_values(self):
        """Each kind's least and greatest value, and a NaN that isn't quiet, in the order of the specification's table."""
        spelled = [
            (field(1, b""), {"string": ""}),
            (b"\x15" + struct.pack("<I", 0x7F7FFFFF), {"float_bits": 0x7F7FFFFF}),
            (b"\x15" + struct.pack("<I", 0xFFA00001), {"float_bits": 0xFFA00001}),
            (b"\x19" + struct.pack("<Q", 0xFFEFFFFFFFFFFFFF), {"double_bits": 0xFFEFFFFFFFFFFFFF}),
            (b"\x19" + struct.pack("<Q", 0x7FF4000000000001), {"double_bits": 0x7FF4000000000001}),
            (field(4, 2**63 - 1), {"int": 2**63 - 1}),
            (field(4, 2**63), {"int": -(2**63)}),
            (field(5, 2**64 - 1), {"uint": 2**64 - 1}),
            (field(5, 0), {"uint": 0}),
            (field(6, zigzag(2**63 - 1)), {"sint": 2**63 - 1}),
            (field(6, zigzag(-(2**63))), {"sint": -(2**63)}),
            (field(7, 1), {"bool": True}),
        ]
        tags = b"".join(varint(i) * 2 for i in range(len(spelled)))
        feature = field(2, field(1, 2**64 - 1) + field(2, tags) + field(3, 1) + field(4, varint(9) + varint(0) * 2))
        keys = b"".join(field(3, b"k%d" % i) for i in range(len(spelled)))
        values = b"".join(field(4, value) for value, _ in spelled)
        layer = field(15, 2) + field(1, b"a") + feature + keys + values + field(5, 2**32 - 1)
        [read] = libmvt.read(field(3, layer)).layers
        self.assertEqual((read.extent, read.features[0].id), (2**32 - 1, 2**64 - 1))
        self.assertEqual([shown_value(it) for it in read.features[0].attributes.values()], [it for _, it in spelled])

    def test_positions(self):
        """A line from the least position to the greatest, in two steps."""
        steps = [varint(zigzag(step)) + varint(0) for step in (1 - 2**31, 2**31 - 1, 2**31 - 1)]
        integers = varint(9) + steps[0] + varint(18) + steps[1] + steps[2]
        feature = field(2, field(3, 2) + field(4, integers))
        [layer] = libmvt.read(field(3, field(15, 2) + field(1, b"a") + feature)).layers
        self.assertEqual(layer.features[0].geometry, [[(1 - 2**31, 0), (0, 0), (2**31 - 1, 0)]])

    def test_kinds_of_numbers(self):
        self.assertEqual((libmvt.Float(1.5), libmvt.Float(1.5).bits), (1.5, 0x3FC00000))
        self.assertEqual(libmvt.Float(0.1), struct.unpack("<f", struct.pack("<f", 0.1))[0])
        self.assertEqual((libmvt.Uint(3), libmvt.Sint(-3)), (3, -3))
        for protocol in range(pickle.HIGHEST_PROTOCOL + 1):
            twin = pickle.loads(pickle.dumps(libmvt.Float(bits=0xFFA00001), protocol))
            self.assertEqual((type(twin), twin.bits), (libmvt.Float, 0xFFA00001))
            for number in (libmvt.Int(-3), libmvt.Uint(3), libmvt.Sint(-3)):
                twin = pickle.loads(pickle.dumps(number, protocol))
                self.assertEqual((type(twin), twin), (type(number), number))

    def test_reads_one_layer(self):
        whole = tile("gdal.mvt")
        read = libmvt.read(whole)
        for layer in read:
            if layer.version == 2:
                self.assertEqual(libmvt.read_layer(whole, layer.name), layer)
        with self.assertRaises(libmvt.NoLayer) as caught:
            libmvt.read_layer(whole, "nowhere")
        self.assertEqual(caught.exception.name, "nowhere")

    def test_one_layer_tells_nothing_of_the_rest(self):
        """A layer without a version, one whose feature has no geometry's type, and one twice; the rest is no field."""
        point = field(2, field(3, 1) + field(4, varint(9) + varint(50) + varint(34)))
        names = [field(3, field(15, 2) + field(1, name) + point) for name in (b"b", b"b", b"a")]
        bad = field(3, field(15, 2) + field(1, b"c") + field(2, field(4, varint(1) + varint(99)) + field(3, 1)))
        input = field(3, field(1, b"a")) + bad + names[0] + names[1] + names[2] + b"\x0b"
        self.assertEqual(libmvt.read_layer(input, "b"), libmvt.read(names[0]).layers[0])
        self.assertEqual(libmvt.read_layer(input, "a").name, "a")
        with self.assertRaises(libmvt.Refused) as caught:
            libmvt.read_layer(input, "c")
        self.assertEqual((caught.exception.layer, caught.exception.feature), (1, 0))
        with self.assertRaises(libmvt.Refused) as caught:
            libmvt.read_layer(input, "nowhere")
        self.assertEqual((caught.exception.layer, caught.exception.at), (None, len(input) - 1))

    def test_bound_of_rows(self):
        whole = tile("gdal.mvt")
        flat = libmvt.rows(whole)
        size = sum(memoryview(getattr(flat, name)).nbytes for name in LISTS)
        self.assertEqual(libmvt.read(whole, most=size), libmvt.read(whole))
        with self.assertRaises(MemoryError):
            libmvt.rows(whole, most=size - 1)
        decoder = libmvt.Decoder(most=size - 1)
        with self.assertRaises(MemoryError):
            decoder.feed(whole)

    def test_rows_print_compare_and_pickle(self):
        flat = libmvt.rows(tile("gdal.mvt"))
        self.assertEqual(repr(flat.points[0]), "PointRow(x=%d, y=%d)" % (flat.points[0].x, flat.points[0].y))
        self.assertEqual(flat.layers[0], libmvt.rows(tile("gdal.mvt")).layers[0])
        self.assertNotEqual(flat.layers[0], flat.layers[1])
        self.assertEqual(copy.copy(flat.layers[0]), flat.layers[0])
        for protocol in range(pickle.HIGHEST_PROTOCOL + 1):
            twin = pickle.loads(pickle.dumps(flat, protocol))
            self.assertEqual(libmvt.write(twin), libmvt.write(flat))
        self.assertEqual(libmvt.write(copy.deepcopy(flat)), libmvt.write(flat))
        self.assertEqual(libmvt.write(pickle.loads(pickle.dumps(libmvt.rows(b"")))), b"")


class BrokenTiles(unittest.TestCase):
    def test_tells_layer_feature_place_and_cause(self):
        with self.assertRaises(libmvt.Refused) as caught:
            libmvt.read(broken("20-ZeroSegment"))
        fault = caught.exception
        self.assertEqual((fault.layer, fault.feature, fault.at, fault.cause, fault.name), (0, 0, 4, 20, "ZeroSegment"))
        self.assertEqual(str(pickle.loads(pickle.dumps(fault))), str(fault))
        with self.assertRaises(libmvt.Refused) as caught:
            libmvt.read(b"\x1b")
        self.assertEqual((caught.exception.layer, caught.exception.feature), (None, None))

    def test_tells_it_in_words(self):
        with self.assertRaises(libmvt.Refused) as caught:
            libmvt.read(broken("20-ZeroSegment"))
        self.assertIn("goes nowhere", caught.exception.explanation)
        # The layer `a`, with a feature of id 7 whose line goes nowhere.
        feature = field(2, field(1, 7) + field(3, 2) + field(4, bytes((9, 0, 0, 10, 0, 0))))
        with self.assertRaises(libmvt.Refused) as caught:
            libmvt.read(field(3, field(15, 2) + field(1, "\u00e4".encode()) + feature))
        fault = caught.exception
        self.assertEqual((fault.layer_name, fault.feature_id), ("\u00e4", 7))
        self.assertEqual((fault.start, fault.end), (20, 21))
        wanted = "layer '\u00e4', feature with id 7: A line goes nowhere: this LineTo moves by (0, 0)."
        self.assertEqual(fault.explanation, wanted)
        self.assertEqual("".join(traceback.format_exception_only(type(fault), fault)).count(wanted), 1)
        twin = pickle.loads(pickle.dumps(fault))
        self.assertEqual((str(twin), twin.explanation, vars(twin)), (str(fault), wanted, vars(fault)))

    def test_says_what_bytes_look_like(self):
        whole = tile("gdal.mvt")
        for compressed in [gzip.compress(whole)] + [zlib.compress(whole, level) for level in (1, 5, 6, 9)]:
            kind = "gzip" if compressed[0] == 0x1F else "zlib"
            wanted = f"This isn't a tile, but looks like {kind}. A tile is read uncompressed: unpack it first."
            for call in CALLS:
                with self.assertRaises(libmvt.Refused) as caught:
                    call(compressed)
                self.assertTrue(caught.exception.explanation.endswith(wanted))
                self.assertTrue(str(caught.exception).endswith(wanted))
            with self.assertRaises(libmvt.Refused) as caught:
                decoder = libmvt.Decoder()
                for at in range(0, len(compressed), 2):
                    decoder.feed(compressed[at : at + 2])
                decoder.finish()
            fault = caught.exception
            self.assertTrue(fault.explanation.endswith(wanted))
            self.assertEqual((fault.start, fault.end), (None, None))


class Threads(unittest.TestCase):
    def test_four_at_a_time(self):
        tiles = [tile(name + ".mvt") for name in WHOLE] * 50
        alone = [(libmvt.rewrite(it), libmvt.to_json(it), libmvt.read(it)) for it in tiles[:2]] * 50
        with ThreadPoolExecutor(4) as threads:
            self.assertEqual(
                list(threads.map(lambda it: (libmvt.rewrite(it), libmvt.to_json(it), libmvt.read(it)), tiles)), alone
            )


class Arrays(unittest.TestCase):
    def setUp(self):
        try:
            import numpy
        except ImportError:
            self.skipTest("numpy isn't there")
        self.numpy = numpy

    def test_sees_the_rows_without_a_copy(self):
        flat = libmvt.rows(tile("gdal.mvt"))
        points = flat.array("points")
        self.assertEqual(points.dtype.names, ("x", "y"))
        self.assertEqual(len(points), len(flat.points))
        self.assertEqual(int(points["x"].astype(self.numpy.int64).sum()), sum(point.x for point in flat.points))
        self.assertEqual(int(points["x"][0]), flat.points[0].x)
        self.assertFalse(points.flags.owndata)

    def test_the_rows_of_a_tile_are_read_only(self):
        """Nothing changes rows, which `write` reads while other threads run; from_arrays makes others."""
        canonical = tile("gdal.canonical.mvt")
        read = libmvt.rows(canonical)
        names = {it: read.array(it) for it in LISTS}
        for flat in (read, libmvt.Rows.from_arrays(**names), pickle.loads(pickle.dumps(read))):
            for change in (
                lambda: setattr(flat.points[0], "x", 1),
                lambda: setattr(flat.layers[0].name, "start", 1),
                lambda: flat.points.__setitem__(0, libmvt.PointRow(1, 1)),
                lambda: flat.tags.__setitem__(0, 1),
                lambda: flat.texts.__delitem__(0),
                lambda: flat.array("points").__setitem__(0, (1, 1)),
                lambda: flat.array("texts").setflags(write=True),
                lambda: memoryview(flat.texts).__setitem__(0, 1),
                lambda: memoryview(flat.points[0]).cast("B").__setitem__(0, 1),
                lambda: io.BytesIO(b"12345678").readinto(flat.points[0]),
            ):
                with self.assertRaises((TypeError, ValueError, BufferError)):
                    change()
            self.assertEqual(libmvt.write(flat), canonical)
        own = libmvt.LayerRow(version=2)
        own.name.start = 3
        self.assertEqual((own.version, own.name.start), (2, 3))
        points = read.array("points").copy()
        points["x"][0] += 1
        self.assertEqual(libmvt.Rows.from_arrays(points=points).points[0].x, read.points[0].x + 1)

    def test_lasts_without_the_rows(self):
        wanted = libmvt.rows(tile("gdal.mvt")).array("points").tolist()
        held = [libmvt.rows(tile("gdal.mvt")).array("points") for _ in range(100)]
        gc.collect()
        self.assertTrue(all(points.tolist() == wanted for points in held))

    def test_empty_lists(self):
        self.assertEqual(len(libmvt.rows(b"").array("features")), 0)
        self.assertEqual(libmvt.rows(b"").array("tags").dtype, self.numpy.uint32)

    def test_each_list_as_it_is(self):
        """Each list, without a warning, as the rows say it."""
        flat = libmvt.rows(tile("gdal.mvt"))
        for name in ("layers", "features", "keys", "values", "tags", "parts", "points", "integers", "texts"):
            with warnings.catch_warnings():
                warnings.simplefilter("error")
                array = flat.array(name)
            self.assertEqual(array.dtype, libmvt.dtype(name))
            self.assertEqual(array.tolist(), [told(row) for row in getattr(flat, name)], name)

    def test_rows_made_of_arrays(self):
        names = ("layers", "features", "keys", "values", "tags", "parts", "points", "integers", "texts")
        for name in WHOLE:
            flat = libmvt.rows(tile(name + ".mvt"))
            made = libmvt.Rows.from_arrays(**{it: flat.array(it) for it in names})
            self.assertEqual(libmvt.write(made), tile(name + ".canonical.mvt"))
        # The layer `a` with the point (25, 17), as the bytes that are known of it.
        layer = self.numpy.zeros(1, libmvt.dtype("layers"))
        layer["version"], layer["extent"] = 2, 4096
        layer["name"]["len"], layer["features"]["len"] = 1, 1
        feature = self.numpy.zeros(1, libmvt.dtype("features"))
        feature["kind"], feature["parts"]["len"] = 1, 1
        points = self.numpy.array([[25, 17]])
        made = libmvt.Rows.from_arrays(layers=layer, features=feature, parts=[[0, 0, 1]], points=points, texts=b"a")
        self.assertEqual(libmvt.write(made).hex(), "1A1178020A0161120718012203093222288020".lower())
        points[0, 0] = 26
        self.assertEqual(made.points[0].x, 25)

    def test_refuses_arrays_that_are_no_rows(self):
        for lists, error in (
            ({"points": [[1, 1 << 31]]}, OverflowError),
            ({"points": [[0.5, 1]]}, TypeError),
            ({"points": [[1, 2, 3]]}, TypeError),
            ({"points": [1, 2]}, TypeError),
            ({"tags": [-1]}, OverflowError),
            ({"tags": [[0, 0]]}, TypeError),
            ({"layers": self.numpy.zeros(1, [("version", "<u4")])}, TypeError),
            ({"rings": [1]}, TypeError),
        ):
            with self.assertRaises(error, msg=lists):
                libmvt.Rows.from_arrays(**lists)


if __name__ == "__main__":
    unittest.main()
