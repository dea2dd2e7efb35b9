"""What is said of each tile: a row of the table. A worker makes the rows of a part, and hands them over as one block."""

import sqlite3
import sys
import tempfile
from collections import Counter
from contextlib import closing
from functools import lru_cache
from operator import itemgetter
from pathlib import Path
from typing import Any, Dict, Iterable, List, NamedTuple, Optional, Sequence, Tuple

import libmvt
from libmvt import CAUSES, NOTES, Finding
from libmvt.raw import finding_of, looked_at, note_of

from .. import bounds
from ..stores import MOST_ZOOM, Address, Content, Store
from ..stores.unpacking import LIMIT, NotUnpacked, tile_in
from . import findings, sizes

ACCEPTED, REFUSED, EMPTY, NOT_UNPACKED, UNREAD = "accepted", "refused", "empty", "not unpacked", "unread"
VERDICTS = (ACCEPTED, REFUSED, NOT_UNPACKED, EMPTY, UNREAD)
BROKEN_VERDICTS = (REFUSED, NOT_UNPACKED, UNREAD)
# In SQL, whether a tile is broken.
BROKEN = f"verdict in {BROKEN_VERDICTS}"

[TOO_LARGE] = (number for number, name in CAUSES.items() if name == "TooLarge")

# Many tiles of a cache are small and equal: what was said of so many such contents, each of so many bytes at most, is kept.
_MOST_KEPT, _SMALL = 1000, 400

# The table of tiles, and what is counted of them, as the results and each block have it.
TILES = """
create table tiles (
  store text not null, z integer, x integer, y integer, name text, tiles integer not null, verdict text not null,
  bytes integer, layer integer, layer_name text, feature integer, feature_id text, place integer, cause integer, cause_name text,
  notes text not null, findings integer, lint text not null);
"""
_BLOCK = f"""{TILES}
create table counts (
  z integer, verdict text, cause integer, cause_name text, layer_name text, has_findings integer, tiles integer);
create table note_counts (z integer, note text, tiles integer);
{findings.BLOCK}
{sizes.BLOCK}
create table extents (z integer, left integer, right integer, top integer, bottom integer);
create table cells (z integer, x integer, y integer, tiles integer, broken integer);
create table beyond_counts (z integer, tiles integer);
create table asked (tiles integer);
"""

# A zoom beyond this one is counted by squares too, of which it has as many as this zoom has tiles.
SQUARES = 8


class Row(NamedTuple):
    """A tile, as the table `tiles` has it behind the store."""

    z: Optional[int]
    x: Optional[int]
    y: Optional[int]
    name: Optional[str]
    tiles: int
    verdict: str
    bytes: Optional[int]
    layer: Optional[int] = None
    layer_name: Optional[str] = None
    feature: Optional[int] = None
    feature_id: Optional[str] = None
    place: Optional[int] = None
    cause: Optional[int] = None
    cause_name: Optional[str] = None
    notes: str = ""
    findings: Optional[int] = None
    lint: str = ""


class Said(NamedTuple):
    """What is said of a content, wherever it stands: a row behind its address, how many notes there are of each kind, and
    the first finding of each kind."""

    verdict: str
    bytes: Optional[int]
    layer: Optional[int] = None
    layer_name: Optional[str] = None
    feature: Optional[int] = None
    feature_id: Optional[str] = None
    place: Optional[int] = None
    cause: Optional[int] = None
    cause_name: Optional[str] = None
    notes: str = ""
    findings: Optional[int] = None
    lint: str = ""
    noted: Tuple[Tuple[str, int], ...] = ()
    found: Tuple[Finding, ...] = ()

    def at(self, address: Address) -> Row:
        return Row._make((*address, *self[:_COLUMNS]))


_COLUMNS = Said._fields.index("noted")
_EMPTY = Said(EMPTY, 0, notes="NoLayers", findings=0, noted=(("NoLayers", 1),))


class Judge:
    """Says what it says of one content after the other, measures those that are accepted if it shall, and keeps what it said
    of small ones."""

    def __init__(self, is_measuring: bool = False) -> None:
        self._look = looked_at
        self._measure = sizes.measure if is_measuring else _nothing
        self._kept: Dict[bytes, Tuple[Said, sizes.Measured]] = {}
        self._last: Tuple[Content, Said] = b"", _EMPTY
        # Of the content before.
        self.measured: sizes.Measured = []

    def __call__(self, content: Content) -> Said:
        last, said = self._last
        if content is last:
            return said
        if not isinstance(content, bytes) or len(content) > _SMALL:
            said = self._said(content)
            self._last = content, said
            return said
        known = self._kept.get(content)
        if known is None:
            if len(self._kept) == _MOST_KEPT:
                self._kept.clear()
            known = self._kept[content] = self._said(content), self.measured
        # What is measured is always of the content that came last.
        said, self.measured = known
        self._last = b"", _EMPTY
        return said

    def _said(self, content: Content) -> Said:
        if isinstance(content, NotUnpacked):
            return Said(NOT_UNPACKED, None, notes=str(content))
        if not isinstance(content, bytes):
            return Said(UNREAD, None, notes=_told(content))
        try:
            tile = tile_in(content)
        except NotUnpacked as why:
            return Said(NOT_UNPACKED, len(content), notes=str(why))
        if not tile:
            return _EMPTY
        try:
            return self._of_tile(tile, len(content) < len(tile))
        except MemoryError:
            return Said(UNREAD, len(tile), notes="out of memory")

    def _of_tile(self, tile: bytes, is_packed: bool) -> Said:
        try:
            told = self._look(tile)
        except libmvt.Refused as fault:
            return _refused(tile, fault, is_packed)
        except MemoryError:
            return self._only_judged(tile, is_packed)
        self.measured = self._measure(tile)
        if told is None:
            return _accepted(len(tile))
        kinds, notes, found = told
        noted = tuple((NOTES[note[0]], count) for count, note in kinds)
        firsts = tuple(finding_of(first) for _, first in found)
        return Said(
            ACCEPTED,
            len(tile),
            notes=_notes(notes, sum(count for count, _ in kinds)),
            findings=sum(count for count, _ in found),
            lint="; ".join(map(str, firsts)),
            noted=noted,
            found=firsts,
        )

    def _only_judged(self, tile: bytes, is_packed: bool) -> Said:
        """What is said of a tile where there is memory to judge it, and no more."""
        try:
            libmvt.judge(tile)
        except libmvt.Refused as fault:
            return _refused(tile, fault, is_packed)
        self.measured = []
        return Said(ACCEPTED, len(tile), notes="what else is to be said of it takes too much memory")


def _nothing(tile: bytes) -> sizes.Measured:
    return []


def _refused(tile: bytes, fault: libmvt.Refused, is_packed: bool) -> Said:
    return Said(REFUSED, len(tile), *_columns(tile, fault, is_packed))


@lru_cache(maxsize=5000)
def _accepted(size: int) -> Said:
    """What is said of most tiles."""
    return Said(ACCEPTED, size, findings=0)


def judged(address: Address, content: Content) -> Row:
    """The row of a tile as it is stored."""
    return Judge()(content).at(address)


def judged_part(store: Store, part: Any) -> bytes:
    """The rows of a range and what is counted of them, as the bytes of an SQLite file, which the results take in at once."""
    judge = Judge(True)
    with closing(sqlite3.connect(":memory:", isolation_level=None)) as database:
        block = _Block(database, store.path)
        plain, others = block.plain, block.others
        for address, content in store.tiles(part):
            if content is None:
                block.absent += 1
                continue
            said = judge(content)
            if said.verdict is ACCEPTED:
                block.sizes.add(address, said.bytes or 0, judge.measured)
            if said.verdict is ACCEPTED and not said.notes and not said.lint:
                plain.append((*address, said.bytes))
            else:
                others.append(said.at(address))
                block.count(address, said)
            if len(plain) >= _AT_A_TIME or len(others) >= _AT_A_TIME:
                block.write()
        return block.file()


# Between which columns and rows the tiles of each zoom lie.
_EXTENTS = f"""insert into extents select z, min(x), max(x), min(y), max(y) from tiles
 where z between 0 and {MOST_ZOOM} and x between 0 and (1 << z) - 1 and y between 0 and (1 << z) - 1 group by z"""

# So many rows of a kind are held as objects of Python.
_AT_A_TIME = 1000

_TILES, _VERDICT = (Row._fields.index(name) for name in ("tiles", "verdict"))
_ZOOM = itemgetter(*(Row._fields.index(name) for name in ("z", "tiles")))


class _Block:
    """What is said of the tiles of a part, in a database in memory."""

    def __init__(self, database: sqlite3.Connection, path: str) -> None:
        self.absent = self._tiles = 0
        # Most tiles are accepted, and nothing else is said of them: these have an address and their bytes.
        self.plain: List[Tuple[Any, ...]] = []
        self.others: List[Tuple[Any, ...]] = []
        self._database = database
        self._kinds: "Counter[Tuple[Any, ...]]" = Counter()
        self._notes: "Counter[Tuple[Any, ...]]" = Counter()
        self._found = findings.Found()
        self.sizes = sizes.Sizes()
        self._beyond: "Counter[int]" = Counter()
        self._cells: "Counter[Tuple[int, int, int]]" = Counter()
        self._broken: "Counter[Tuple[int, int, int]]" = Counter()
        # A text within a command isn't bound for each row.
        text = path.replace("'", "''")
        self._insert = f"insert into tiles values ('{text}'{', ?' * len(Row._fields)})"
        self._insert_plain = f"""insert into tiles (store, z, x, y, name, tiles, bytes, verdict, notes, findings, lint)
 values ('{text}', ?, ?, ?, ?, ?, ?, '{ACCEPTED}', '', 0, '')"""
        database.executescript(f"{_BLOCK} begin;")

    def write(self) -> None:
        """Has the rows so far be in the tables, and counts them."""
        plain, others = self.plain, self.others
        self._database.executemany(self._insert_plain, plain)
        self._database.executemany(self._insert, others)
        for (z, tiles), rows in Counter(map(_ZOOM, plain)).items():
            self._kinds[z, ACCEPTED, None, None, None, 0] += tiles * rows
            self._tiles += tiles * rows
        self._count_places(plain)
        self._count_places(others)
        plain.clear()
        others.clear()

    def count(self, address: Address, said: Said) -> None:
        """Counts a tile of which something is said."""
        z, tiles = address.z, address.tiles
        self._tiles += tiles
        has_findings = said.findings and 1
        self._kinds[z, said.verdict, said.cause, said.cause_name, said.layer_name, has_findings] += tiles
        for note, _ in said.noted:
            self._notes[z, note] += tiles
        self._found.add(address, said.found)

    def _count_places(self, rows: Iterable[Tuple[Any, ...]]) -> None:
        """Counts tiles of deep zooms by the squares that they lie in, a run by that of its first tile; and those at places
        that their zoom doesn't have."""
        for row in rows:
            z, x, y = row[:3]
            if z is None:
                continue
            if min(z, x, y) < 0 or x >> z or y >> z:
                self._beyond[z] += row[_TILES]
            elif z > SQUARES:
                cell = z, x >> z - SQUARES, y >> z - SQUARES
                self._cells[cell] += row[_TILES]
                # In rows of which nothing else is said there stands a number.
                if row[_VERDICT] in BROKEN_VERDICTS:
                    self._broken[cell] += row[_TILES]

    def file(self) -> bytes:
        """All of it, as the bytes of a file."""
        self.write()
        database = self._database
        kinds, notes, cells = self._kinds.items(), self._notes.items(), self._cells.items()
        database.executemany(
            "insert into counts values (?, ?, ?, ?, ?, ?, ?)", ((*kind, tiles) for kind, tiles in kinds)
        )
        database.executemany("insert into note_counts values (?, ?, ?)", ((*note, tiles) for note, tiles in notes))
        database.executemany("insert into beyond_counts values (?, ?)", self._beyond.items())
        self._found.write(database)
        self.sizes.write(database)
        database.execute(_EXTENTS)
        rows = ((*cell, tiles, self._broken[cell]) for cell, tiles in cells)
        database.executemany("insert into cells values (?, ?, ?, ?, ?)", rows)
        database.execute("insert into asked values (?)", (self._tiles + self.absent,))
        database.execute("commit")
        return _file_of(database)


def _file_of(database: sqlite3.Connection) -> bytes:
    """The bytes that a file of the database would have."""
    if sys.version_info >= (3, 11):
        return database.serialize()
    with tempfile.TemporaryDirectory() as room:
        file = Path(room, "part")
        with closing(sqlite3.connect(file)) as copy:
            database.backup(copy)
        return file.read_bytes()


def _notes(rows: Sequence[Sequence[int]], count: int) -> str:
    """The first notes, as `mvt check` prints them, and how many more there are."""
    notes = [str(note_of(row)) for row in rows]
    if count > len(notes):
        notes.append(f"and {count - len(notes)} more")
    return "; ".join(notes)


def _columns(tile: bytes, fault: libmvt.Refused, is_packed: bool) -> Tuple[Any, ...]:
    """The layer, its name, the feature, its id, the place, the cause and its name. What unpacks beyond the limit is too
    large, whatever its front breaks."""
    if is_packed and len(tile) > LIMIT and fault.cause != TOO_LARGE:
        return (
            None,
            None,
            None,
            None,
            LIMIT,
            TOO_LARGE,
            CAUSES[TOO_LARGE],
            f"the front breaks a rule too: {fault.line}",
        )
    id = None if fault.feature_id is None else str(fault.feature_id)
    name = None if fault.layer_name is None else bounds.cut(fault.layer_name)
    return (fault.layer, name, fault.feature, id, fault.at, fault.cause, fault.name)


def _told(why: Optional[Exception]) -> str:
    told = (why.strerror if isinstance(why, OSError) else None) or str(why) or type(why).__name__
    return told[: bounds.WHY]
