"""20,000 tiles have the same table, but for the store's name, in a PMTiles archive, an MBTiles file, a folder and from a server."""

import gzip
import unittest

import archives
from common import EVIDENCE, Case, audit, example_tiles, make_mbtiles, make_tree, rows
from mvt_tools.audit.judging import Row
from test_server import Server

COUNT = 20_000


def tiles():
    """The example tiles in turn, whole and broken, and those that viewers stumble over, each third plain and each twelfth not
    there, at zooms 0 to 7."""
    kinds = [tile for name, tile in example_tiles().items() if len(tile) < 5_000 and name != "04-WireType-gzip"]
    kinds += EVIDENCE.values()
    places = ((z, x, y) for z in range(8) for x in range(1 << z) for y in range(1 << z))
    found = {}
    for number, place in enumerate(places):
        tile = kinds[number % len(kinds)]
        if number % 12:
            found[place] = gzip.compress(tile, 1) if number % 3 else tile
        if len(found) == COUNT:
            return found
    raise AssertionError("too few places")


class Same(Case):
    def test_four_stores(self):
        held = tiles()
        make_tree(self.room / "tree", held, ".pbf")
        make_mbtiles(self.room / "a.mbtiles", held)
        (self.room / "a.pmtiles").write_bytes(archives.archive(held, leaf=2000, internal=2, packed=2))

        def answer(path):
            tile = held.get(tuple(map(int, path[1:].split("/"))))
            return (404, {}, b"") if tile is None else (200, {}, tile)

        server = Server(answer)
        self.addCleanup(server.server_close)
        self.addCleanup(server.shutdown)
        stores = {"tree": [], "a.mbtiles": [], "a.pmtiles": [], server.address + "/{z}/{x}/{y}": ["--zooms", "0-7"]}
        tables = []
        for number, (name, words) in enumerate(stores.items()):
            into = self.room / f"audit {number}"
            store = name if words else self.room / name
            status, out, error = audit(store, *words, "--into", into, workers=4)
            self.assertEqual(status, 1, error)
            columns = ", ".join(field for field in Row._fields if field != "name")
            tables.append(
                (
                    rows(into, f"select {columns} from tiles order by z, x, y"),
                    rows(
                        into,
                        "select z, verdict, cause, cause_name, layer_name, has_findings, tiles from counts order by 1, 2, 3, 4, 5, 6",
                    ),
                    rows(into, "select z, note, tiles from note_counts order by 1, 2"),
                    rows(into, "select z, finding, tiles from finding_counts order by 1, 2"),
                    rows(into, "select z, finding, x, y, lint from finding_examples order by 1, 2"),
                    out.splitlines()[1:10],
                )
            )
            self.assertEqual(len(tables[-1][0]), COUNT)
        for table in tables[1:]:
            self.assertEqual(table, tables[0])


if __name__ == "__main__":
    unittest.main()
