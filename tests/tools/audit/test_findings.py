"""Findings: what the audit has of each evidence tile of evidence/viewers, which is worked by hand, in each kind of store."""

import gzip
import re
import resource
import unittest
from collections import Counter
from contextlib import closing
from pathlib import Path
from unittest.mock import patch

import archives
from common import (
    EVIDENCE,
    FOUND,
    TOP,
    Case,
    at_places,
    audit,
    example_tiles,
    json,
    make_mbtiles,
    make_tree,
    packings,
    rows,
)
from evidence import layer, line, point, tile
from wire import field
from libmvt import Finding
from mvt_tools import stores
from mvt_tools.audit.judging import Judge, Row, Said, judged, judged_part
from mvt_tools.audit.results import Block, Results
from mvt_tools.stores import Address

KINDS = ("ZeroExtent", "NoGeometry", "UnknownGeometry", "FarPoint", "LargeId", "LargeNumber")
FAR = line((1024, 1024), (16384, 1024), (20000, 3072))
# Two layers: in the first a far line, a good one and two without geometry, in the second a far point with a large id.
SEVERAL = layer("a", [FAR, line((0, 0), (1, 1)), b"", b""]) + layer("b", [field(1, 2**53) + point(0, -20000)])
SEVERAL_SAID = "FarPoint layer 0 feature 0 position 16384 1024; NoGeometry layer 0 feature 2; LargeId layer 1 feature 0"


def evidence():
    """The names of the evidence tiles by place, at two zooms, and the tiles."""
    names = list(EVIDENCE)
    half = len(names) // 2
    placed = {**at_places(names[:half], z=3), **at_places(names[half:], z=9)}
    return placed, {place: EVIDENCE[name] for place, name in placed.items()}


class Stores(Case):
    def test_each_store(self):
        names, tiles = evidence()
        make_tree(self.room / "tree", tiles)
        make_mbtiles(self.room / "a.mbtiles", {place: gzip.compress(content) for place, content in tiles.items()})
        (self.room / "a.pmtiles").write_bytes(archives.archive(tiles, leaf=5, internal=2))
        for store in ("tree", "a.mbtiles", "a.pmtiles"):
            into = self.room / f"of {store}"
            status, out, error = audit(self.room / store, "--into", into, "--part", 7, "--json")
            self.assertEqual((status, error), (0, ""), store)
            found = {
                row[:3]: row[3:] for row in rows(into, "select z, x, y, verdict, findings, lint, cause from tiles")
            }
            wanted = {
                place: ("accepted", int(name in FOUND), FOUND.get(name, ""), None) for place, name in names.items()
            }
            self.assertEqual(found, wanted, store)
            self.counted(into, names)
            self.told(json.loads(out), self.room / store, names)
            self.page((into / "report.html").read_text(), names)

    def counted(self, into, names):
        """Tables of counts, which can be summed."""
        kinds = Counter((place[0], FOUND[name].split()[0]) for place, name in names.items() if name in FOUND)
        self.assertEqual({row[:2]: row[2] for row in rows(into, "select z, finding, tiles from finding_counts")}, kinds)
        self.assertEqual(rows(into, "select sum(findings) from tiles"), [(len(FOUND),)])
        with_findings = Counter((place[0], int(name in FOUND)) for place, name in names.items())
        counts = rows(into, "select z, has_findings, sum(tiles) from counts group by 1, 2")
        self.assertEqual({row[:2]: row[2] for row in counts}, with_findings)

    def told(self, found, store, names):
        """The summary as JSON: by kind and by zoom, with an example of the lowest zoom."""
        self.assertEqual(found["verdicts"]["accepted"], len(names))
        self.assertEqual((found["causes"], found["zooms"]), ([], []))
        self.assertEqual(found["with_findings"], len(FOUND))
        zooms = Counter(place[0] for place, name in names.items() if name in FOUND)
        self.assertEqual({each["z"]: each["tiles"] for each in found["finding_zooms"]}, zooms)
        self.assertEqual({each["finding"] for each in found["findings"]}, set(KINDS))
        for each in found["findings"]:
            have = sorted(place for place, name in names.items() if FOUND.get(name, "").startswith(each["finding"]))
            self.assertEqual(each["tiles"], len(have))
            self.assertEqual({zoom["z"]: zoom["tiles"] for zoom in each["zooms"]}, Counter(place[0] for place in have))
            example = dict(each["example"])
            example.pop("name")
            z, x, y = have[0]
            self.assertEqual(example, {"store": str(store), "z": z, "x": x, "y": y, "lint": FOUND[names[have[0]]]})

    def page(self, page, names):
        self.assertIn(f"All {len(names)} tiles are good.", page)
        self.assertIn(f'<a href="#findings">{len(FOUND)} good tiles</a>', page)
        self.assertEqual(re.findall('id="finding-([A-Za-z]+)"', page), [kind for kind, _ in by_tiles(FOUND.values())])
        for kind, tiles in by_tiles(FOUND.values()):
            self.assertIn(f'id="finding-{kind}">{kind}: {tiles} tile', page)
            place, lint = min(
                (place, FOUND[name]) for place, name in names.items() if FOUND.get(name, "").startswith(kind)
            )
            self.assertIn("<h4>%d/%d/%d, layer 0 “a”" % place, page)
            self.assertIn(f"<code>{lint}</code>", page)
        self.assertIn("feature 0 (id 9007199254740992)", page)

    def test_lines_of_the_summary(self):
        make_tree(
            self.room / "tree",
            at_places([EVIDENCE[name] for name in ("no-geometry", "no-finding", "large-id", "far-point-alone")]),
        )
        make_tree(self.room / "tree", at_places([SEVERAL], z=2))
        status, out, _ = audit(self.room / "tree", "--into", self.into)
        self.assertEqual(status, 0)
        lines = out.splitlines()
        self.assertEqual(len(lines), 14)
        self.assertEqual(lines[3], "4 with findings, which break no rule: FarPoint 2, LargeId 2, NoGeometry 2")
        self.assertEqual(
            lines[9],
            "with findings, by zoom: 5 3, 2 1; such as FarPoint in 2/0/0, LargeId in 2/0/0, NoGeometry in 2/0/0",
        )

    def test_good_tiles_without_findings(self):
        make_tree(self.room / "tree", at_places([EVIDENCE["no-finding"], example_tiles()["gdal"], b""]))
        status, out, _ = audit(self.room / "tree", "--into", self.into)
        self.assertEqual((status, len(out.splitlines())), (0, 13))
        self.assertRegex(out, "(?m)^0 with findings$")
        self.assertEqual(rows(self.into, "select findings, lint from tiles"), [(0, "")] * 3)
        self.assertNotIn(
            "finding", re.sub("<style>.*</style>", "", (self.into / "report.html").read_text(), flags=re.DOTALL)
        )

    def test_broken_tiles_have_none(self):
        broken = example_tiles()["20-ZeroSegment"]
        make_tree(self.room / "tree", at_places([EVIDENCE["large-id"], EVIDENCE["large-id"] + broken, b"\x1f\x8b"]))
        status, out, _ = audit(self.room / "tree", "--into", self.into, "--json")
        self.assertEqual(status, 1)
        wanted = [("accepted", 1, "LargeId layer 0 feature 0"), ("refused", None, ""), ("not unpacked", None, "")]
        self.assertEqual(rows(self.into, "select verdict, findings, lint from tiles order by x"), wanted)
        self.assertEqual(json.loads(out)["with_findings"], 1)

    def test_a_list_has_examples_by_name(self):
        for name in ("large-number", "large-id"):
            (self.room / f"{name}.mvt").write_bytes(EVIDENCE[name])
        (self.room / "list.txt").write_text("large-number.mvt\nlarge-id.mvt\nlarge-number.mvt\n")
        status, out, _ = audit(self.room / "list.txt", "--into", self.into)
        self.assertEqual(status, 0)
        self.assertIn(
            "with findings, by zoom: - 3; such as LargeNumber in large-number.mvt, LargeId in large-id.mvt\n", out
        )
        self.assertIn("No zoom: 2 tiles.", (self.into / "report.html").read_text())

    def test_older_results_are_told(self):
        make_tree(self.room / "tree", at_places([b""]))
        audit(self.room / "tree", "--into", self.into)
        with closing(Results(self.into)) as results:
            results.database.execute("pragma user_version = 2")
        self.fails([self.room / "tree"], 2, "audit.sqlite: not made by this mvt-audit; --anew begins again")
        self.assertEqual(audit(self.room / "tree", "--into", self.into, "--anew")[0], 0)


def by_tiles(said):
    """Kinds and how many tiles have them, as they are told: the largest number first, and then by name."""
    return sorted(Counter(each.split()[0] for each in said).items(), key=lambda kind: (-kind[1], kind[0]))


class Tiles(unittest.TestCase):
    def row(self, content):
        return judged(Address(0, 0, 0), content)

    def test_several_in_a_tile(self):
        for kind, stored in packings(SEVERAL).items():
            row = self.row(stored)
            self.assertEqual((row.verdict, row.findings, row.lint), ("accepted", 5, SEVERAL_SAID), kind)

    def test_beside_notes(self):
        row = self.row(layer("a", [b""]) + layer("b", []))
        self.assertEqual(
            row[4:],
            Row(
                *[None] * 4,
                1,
                "accepted",
                row.bytes,
                notes="NoFeatures layer 1",
                findings=1,
                lint="NoGeometry layer 0 feature 0",
            )[4:],
        )

    def test_large_tiles_are_looked_at(self):
        # an unknown field makes it large
        row = self.row(gzip.compress(tile([b""]) + field(14, bytes(20_000_000))))
        self.assertEqual(
            (row.verdict, row.notes, row.findings, row.lint), ("accepted", "", 1, "NoGeometry layer 0 feature 0")
        )

    def test_the_dearest_tile_takes_bounded_memory(self):
        # each feature is two bytes, and has a finding
        features = 2_000_000
        before = resource.getrusage(resource.RUSAGE_SELF).ru_maxrss
        row = self.row(field(3, field(15, 2) + field(1, b"a") + b"\x12\x00" * features))
        grown = (resource.getrusage(resource.RUSAGE_SELF).ru_maxrss - before) * 1024
        self.assertEqual((row.findings, row.lint), (features, "NoGeometry layer 0 feature 0"))
        self.assertLess(grown, 300 * features)

    def test_out_of_memory(self):
        def look(tile):
            raise MemoryError

        judge = Judge()
        judge._look = look
        with patch("libmvt.judge", look):
            self.assertEqual(judge(SEVERAL), Said("unread", len(SEVERAL), notes="out of memory"))

    def test_memory_for_no_more_than_judging(self):
        def look(tile):
            raise MemoryError

        judge = Judge()
        judge._look = look
        self.assertEqual(
            judge(SEVERAL), Said("accepted", len(SEVERAL), notes="what else is to be said of it takes too much memory")
        )


class Blocks(Case):
    def test_the_example_is_the_same_in_any_order(self):
        tiles = at_places([EVIDENCE["large-id"], SEVERAL, b""] * 40, z=6)
        store = stores.opened(str(make_mbtiles(self.room / "a.mbtiles", tiles)))
        blocks = [Block(store.path, part, judged_part(store, some)) for part, some in enumerate(store.ranges(10))]
        tables = []
        for number, order in enumerate((blocks, blocks[::-1], blocks[3:] + blocks[:3])):
            with closing(Results(self.room / str(number))) as results:
                results.begin([store], [store.state()], 10)
                results.add(order)
                tables.append(results.database.execute("select * from finding_examples order by finding").fetchall())
        self.assertEqual(
            tables[0],
            [
                (store.path, 6, "FarPoint", 0, 1, None, SEVERAL_SAID.split("; ")[0], 0, 0),  # the 65th tile
                (store.path, 6, "LargeId", 0, 0, None, "LargeId layer 0 feature 0", 0, 0),
                (store.path, 6, "NoGeometry", 0, 1, None, SEVERAL_SAID.split("; ")[1], 0, 2),
            ],
        )
        self.assertEqual(tables[1:], tables[:1] * 2)


class Words(unittest.TestCase):
    def test_what_happens_in_which_viewer_is_as_the_documents_have_it(self):
        table = re.findall(
            r"^\| `lint (\w+).*?` \| (.*) \| (.*) \|$", Path(TOP, "docs", "PROGRAM.md").read_text(), re.MULTILINE
        )
        self.assertEqual([kind for kind, _, _ in table], list(KINDS))
        for kind, when, happens in table:
            self.assertEqual(Finding(kind, 0).explanation.lower(), f"{when}. {happens}.".lower())
        self.assertEqual(
            Finding("NoGeometry", 0).explanation,
            "A feature of unknown type has no integers. A line layer of Mapbox GL ends the whole viewer.",
        )


if __name__ == "__main__":
    unittest.main()
