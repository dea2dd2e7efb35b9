"""What the tests of mvt-audit share: stores made of tiles, runs of the command, and what `mvt check` says."""

import gzip
import json
import os
import re
import signal
import sqlite3
import subprocess
import sys
import tempfile
import unittest
import zlib
from contextlib import closing
from pathlib import Path

TOP = Path(__file__).resolve().parents[3]
TILES = TOP / "fixtures" / "tiles"
sys.path += map(str, (TOP / "evidence" / "viewers", TOP / "tests" / "program", TILES))
import cases  # noqa: E402
from evidence import tiles as evidence_tiles  # noqa: E402
from linted import FOUND  # noqa: E402

# The smallest tiles that viewers stumble over, and those at the limits, by name.
EVIDENCE = dict(evidence_tiles())
# In an installed package or wheel the command itself is named.
AUDIT = [os.environ["MVT_AUDIT"]] if "MVT_AUDIT" in os.environ else [sys.executable, "-m", "mvt_tools.audit"]
FAULT = re.compile(r"layer (\S+) feature (\S+) at (\d+): (\d+) (\w+)\n")


def example_tiles():
    """The example tiles, whole and broken ones, by name."""
    tiles = {path.stem: path.read_bytes() for path in [*TILES.glob("*.mvt"), *TILES.glob("broken/*.mvt")]}
    tiles["25-TooLarge"] = gzip.decompress((TILES / "broken" / "25-TooLarge.mvt.gz").read_bytes())
    return tiles


def said_by_program():
    """What `mvt check` says of each example tile, by name: the verdict, the fault's columns, and the notes."""
    said = {}
    for case in cases.examples():
        notes = [line.removeprefix("note ") for line in case.said.get("check", "").splitlines()[1:]]
        said[case.name] = ("accepted", (None,) * 5, notes)
        if told := FAULT.fullmatch(case.said.get("fault", "")):
            layer, feature = (None if index == "-" else int(index) for index in told.groups()[:2])
            said[case.name] = ("refused", (layer, feature, int(told[3]), int(told[4]), told[5]), [])
    return said


def make_mbtiles(path, tiles, kind="table", form="pbf"):
    """An MBTiles file of tiles by (z, x, y) from the north, as one table, or as the view of two that saves equal tiles."""
    with closing(sqlite3.connect(path)) as database, database:
        database.execute("create table metadata (name text, value text)")
        if form:
            database.execute("insert into metadata values ('format', ?)", (form,))
        if kind == "view":
            database.execute("create table images (tile_id text primary key, tile_data blob)")
            database.execute(
                "create table map (zoom_level integer, tile_column integer, tile_row integer, tile_id text)"
            )
            database.execute("create unique index map_index on map (zoom_level, tile_column, tile_row)")
            database.execute(
                "create view tiles as select zoom_level, tile_column, tile_row, tile_data from map join images using (tile_id)"
            )
        else:
            end = "without rowid" if kind == "keys" else ""
            database.execute(
                "create table tiles (zoom_level integer, tile_column integer, tile_row integer, tile_data blob,"
                f" primary key (zoom_level, tile_column, tile_row)) {end}"
            )
        for number, ((z, x, y), tile) in enumerate(tiles.items()):
            place = (z, x, (1 << z) - 1 - y)
            if kind == "view":
                database.execute("insert into images values (?, ?)", (str(number), tile))
                database.execute("insert into map values (?, ?, ?, ?)", (*place, str(number)))
            else:
                database.execute("insert into tiles values (?, ?, ?, ?)", (*place, tile))
    return path


def make_tree(folder, tiles, end=".mvt"):
    for (z, x, y), tile in tiles.items():
        path = Path(folder, str(z), str(x), f"{y}{end}")
        path.parent.mkdir(parents=True, exist_ok=True)
        path.write_bytes(tile)
    return folder


def at_places(tiles, z=5):
    """Tiles at places of a zoom, in order."""
    return {(z, number % (1 << z), number >> z): tile for number, tile in enumerate(tiles)}


def packings(tile):
    return {"plain": tile, "gzip": gzip.compress(tile), "zlib": zlib.compress(tile)}


def start(*words, **how):
    """A run of the command, in a session of its own, so that Ctrl-C can be sent to all of it."""
    return subprocess.Popen(
        [*AUDIT, *map(str, words)],
        stdout=subprocess.PIPE,
        stderr=subprocess.PIPE,
        text=True,
        start_new_session=True,
        **how,
    )


def audit(*words, workers=2, **how):
    """A whole run: the status, the lines, and what stood on standard error."""
    where = [] if "--scheduler" in words else ["--workers", workers]
    process = start(*words, *where, **how)
    out, error = process.communicate(timeout=300)
    return process.returncode, out, error


def rows(folder, query, *values):
    with closing(sqlite3.connect(f"file:{folder}/audit.sqlite?mode=ro", uri=True)) as database:
        return database.execute(query, values).fetchall()


def held(path):
    """The tiles of an MBTiles file by place, counted from the north, and its metadata."""
    with closing(sqlite3.connect(path)) as database:
        found = database.execute("select zoom_level, tile_column, tile_row, tile_data from tiles").fetchall()
        said = dict(database.execute("select name, value from metadata"))
        assert database.execute("pragma integrity_check").fetchone() == ("ok",)
    return {(z, x, (1 << z) - 1 - y): data for z, x, y, data in found}, said


def files(folder):
    return {str(path.relative_to(folder)): path.read_bytes() for path in Path(folder).rglob("*") if path.is_file()}


class Case(unittest.TestCase):
    """A test with a folder of its own."""

    def setUp(self):
        room = tempfile.TemporaryDirectory()
        self.addCleanup(room.cleanup)
        self.room = Path(room.name)
        self.into = self.room / "audit"

    def fails(self, words, status, pattern):
        """The command ends with a status and one plain line."""
        got, out, error = audit(*words, "--into", self.into)
        self.assertEqual(got, status, error)
        self.assertEqual(out, "")
        self.assertRegex(error, pattern)
        self.assertEqual(error.count("\n"), 1, error)


__all__ = [
    "AUDIT",
    "EVIDENCE",
    "FOUND",
    "Case",
    "audit",
    "at_places",
    "example_tiles",
    "files",
    "held",
    "json",
    "make_mbtiles",
    "make_tree",
    "packings",
    "rows",
    "said_by_program",
    "signal",
    "start",
]
