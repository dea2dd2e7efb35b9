"""The results in `audit.sqlite`: written by one process, in transactions of whole parts of stores."""

import fcntl
import os
import sqlite3
import sys
import tempfile
import time
from pathlib import Path
from typing import Any, Dict, Iterable, List, NamedTuple, Sequence, Set

from ..stores import State, Store
from . import findings, sizes
from .judging import BROKEN, TILES

SCHEMA = f"""
create table stores (
  path text primary key, kind text not null, tiles integer not null, digest text not null, part_size integer not null,
  begun text not null) without rowid;
create table parts (
  store text not null, part integer not null, tiles integer not null, primary key (store, part)) without rowid;
{TILES}
create table counts (
  store text not null, z integer, verdict text not null, cause integer, cause_name text, layer_name text,
  has_findings integer, tiles integer not null);
create table note_counts (store text not null, z integer, note text not null, tiles integer not null);
create table beyond_counts (store text not null, z integer, tiles integer not null);
{findings.TABLES}
{sizes.TABLES}
create table extents (
  store text not null, z integer, left integer, right integer, top integer, bottom integer, unique (store, z));
create table cells (
  z integer, x integer, y integer, tiles integer not null, broken integer not null, primary key (z, x, y)) without rowid;
"""
VERSION = 5

# It is made when all tiles are in: while there is none, the rows of a block are copied as they stand.
_INDEX = "create index if not exists tiles_not_accepted on tiles (verdict, cause, z) where verdict <> 'accepted'"

# By it a count is found that is added to: there are as many as the tiles have names of layers.
_COUNTS_INDEX = "create index if not exists counts_of on counts (layer_name, z)"

# So many blocks are taken in at a time: SQLite has room for ten databases.
_BLOCKS = 8

# So many steps of SQLite take some milliseconds.
_STEPS = 100_000

# What SQLite's whole numbers hold at most. An archive may say that it has more tiles.
_MOST = (1 << 63) - 1

_ADD_CELLS = """insert into main.cells select * from {block}.cells where true
 on conflict do update set tiles = tiles + excluded.tiles, broken = broken + excluded.broken"""

_ADD_EXTENTS = """insert into main.extents select ?, * from {block}.extents where true
 on conflict do update set left = min(left, excluded.left), right = max(right, excluded.right),
 top = min(top, excluded.top), bottom = max(bottom, excluded.bottom)"""

# By what tiles are counted, beside the store.
COUNTED = ("z", "verdict", "cause", "cause_name", "layer_name", "has_findings")
NOTED = ("z", "note")
FOUND = ("z", "finding")


class ResultsError(Exception):
    """Why the results can't be used, in a line."""


class Block(NamedTuple):
    """What a worker found in a part of a store: the bytes of an SQLite file."""

    path: str
    part: int
    content: bytes


class Added(NamedTuple):
    """Of how many tiles a block is, and how many of them are broken."""

    tiles: int
    broken: int


class Done(NamedTuple):
    """What stands in the results of a store."""

    parts: Set[int]
    tiles: int


class Results:
    """The file of results in a folder, which is this process's alone until it is closed."""

    def __init__(self, folder: Path, anew: bool = False) -> None:
        folder.mkdir(parents=True, exist_ok=True)
        self.file = folder / "audit.sqlite"
        self._lock = locked(folder)
        try:
            if anew:
                for end in ("", "-journal"):
                    Path(f"{self.file}{end}").unlink(missing_ok=True)
            self.database = self._opened()
        except BaseException:
            os.close(self._lock)
            raise

    def _opened(self) -> sqlite3.Connection:
        database = sqlite3.connect(self.file, isolation_level=None)
        # A call of SQLite's comes back to Python every while, so that Ctrl-C is heard.
        database.set_progress_handler(lambda: None, _STEPS)
        try:
            [version] = database.execute("pragma user_version").fetchone()
            [tables] = database.execute("select count(*) from sqlite_master").fetchone()
            if not tables:
                # Larger pages than SQLite's own take less time to fill.
                database.executescript(
                    f"pragma page_size = 16384; begin; {SCHEMA} pragma user_version = {VERSION}; commit;"
                )
            elif version != VERSION:
                raise ResultsError(f"{self.file}: not made by this mvt-audit; --anew begins again")
            database.execute(_COUNTS_INDEX)
            for number in range(_BLOCKS):
                database.execute(f"attach ':memory:' as block{number}")
        except sqlite3.OperationalError:
            raise  # such as that the disk is full
        except sqlite3.DatabaseError as why:
            raise ResultsError(f"{self.file}: {why}; --anew begins again") from why
        return database

    def close(self) -> None:
        self.database.close()
        os.close(self._lock)

    def begin(self, stores: Sequence[Store], states: Sequence[State], size: int) -> Dict[str, Done]:
        """Notes the stores, and answers what is done of them. Raises ResultsError where they aren't those of before."""
        known = {path: digest for path, digest in self.database.execute("select path, digest from stores")}
        paths = [store.path for store in stores]
        if known and set(known) != set(paths):
            raise ResultsError(f"{self.file} is of {', '.join(sorted(known))}; --anew begins again, with other stores")
        changed = [path for path, state in zip(paths, states) if known and known[path] != state.digest]
        if changed:
            raise ResultsError(f"changed since the audit was begun: {', '.join(changed)}; --anew begins again")
        if not known:
            now = time.strftime("%Y-%m-%d %H:%M:%S")
            rows = [
                (store.path, store.kind, min(state.tiles, _MOST), state.digest, size, now)
                for store, state in zip(stores, states)
            ]
            with _transaction(self.database):
                self.database.executemany("insert into stores values (?, ?, ?, ?, ?, ?)", rows)
        return {path: self.done(path) for path in paths}

    def part_size(self) -> int:
        """Of the parts that the stores were cut into when the audit was begun."""
        [size] = self.database.execute("select min(part_size) from stores").fetchone()
        return int(size)

    def done(self, path: str) -> Done:
        """What is done of a store."""
        rows = self.database.execute("select part, tiles from parts where store = ?", (path,)).fetchall()
        return Done({part for part, _ in rows}, sum(tiles for _, tiles in rows))

    def add(self, blocks: Sequence[Block]) -> List[Added]:
        """Takes in the rows of parts, all or none of each."""
        some = [self._add(blocks[begin : begin + _BLOCKS]) for begin in range(0, len(blocks), _BLOCKS)]
        return [added for each in some for added in each]

    def _add(self, blocks: Sequence[Block]) -> List[Added]:
        """Takes in some parts by one transaction, since each waits for the disk."""
        named = [(f"block{number}", block) for number, block in enumerate(blocks)]
        for name, block in named:
            self._hold(name, block.content)
        with _transaction(self.database) as database:
            return [_copy(database, name, block) for name, block in named]

    def drop_index(self) -> None:
        """Before blocks are added."""
        self.database.execute("drop index if exists tiles_not_accepted")

    def make_index(self) -> None:
        """When all are."""
        self.database.execute(_INDEX)

    def _hold(self, name: str, content: bytes) -> None:
        """Has a database be these bytes of a file."""
        if sys.version_info >= (3, 11):
            self.database.deserialize(content, name=name)
            return
        self.database.execute(f"detach {name}")
        with tempfile.NamedTemporaryFile() as file:
            file.write(content)
            file.flush()
            self.database.execute(f"attach ? as {name}", (file.name,))

    def broken(self) -> int:
        """How many tiles are broken."""
        [broken] = self.database.execute(f"select total(tiles) from counts where {BROKEN}").fetchone()
        return int(broken)

    def counted(self, columns: str, where: str = "true") -> List[Any]:
        """The counts by some columns: these and the number of tiles, the largest number first."""
        order = f"group by {columns} order by sum(tiles) desc, {columns}"
        return self.database.execute(f"select {columns}, sum(tiles) from counts where {where} {order}").fetchall()


class _transaction:
    """What is done within is written whole or not at all."""

    def __init__(self, database: sqlite3.Connection) -> None:
        self.database = database

    def __enter__(self) -> sqlite3.Connection:
        self.database.execute("begin immediate")
        return self.database

    def __exit__(self, kind: Any, *_: object) -> None:
        if kind is None:
            self.database.execute("commit")
        elif self.database.in_transaction:  # else SQLite has rolled back what it couldn't write
            self.database.execute("rollback")


def _copy(database: sqlite3.Connection, name: str, block: Block) -> Added:
    """Copies the rows of a block, and adds what it counted."""
    [tiles] = database.execute(f"select tiles from {name}.asked").fetchone()
    [broken] = database.execute(f"select total(tiles) from {name}.counts where {BROKEN}").fetchone()
    database.execute(f"insert into main.tiles select * from {name}.tiles")
    _count(database, name, "counts", COUNTED, block.path)
    _count(database, name, "note_counts", NOTED, block.path)
    _count(database, name, "finding_counts", FOUND, block.path)
    _count(database, name, "beyond_counts", ("z",), block.path)
    findings.add_examples(database, name, block.path)
    sizes.add(database, name, block.path)
    database.execute(_ADD_EXTENTS.format(block=name), (block.path,))
    database.execute(_ADD_CELLS.format(block=name))
    database.execute("insert into parts values (?, ?, ?)", (block.path, block.part, tiles))
    return Added(tiles, int(broken))


def _count(database: sqlite3.Connection, name: str, table: str, columns: Iterable[str], path: str) -> None:
    """Adds a block's counts to a table of counts."""
    where = " and ".join(f"{column} is ?" for column in ["store", *columns])
    found = database.execute(f"select {', '.join(columns)}, tiles from {name}.{table}").fetchall()
    for *kind, tiles in found:
        changed = database.execute(f"update main.{table} set tiles = tiles + ? where {where}", (tiles, path, *kind))
        if not changed.rowcount:
            database.execute(f"insert into main.{table} values (?{', ?' * (len(kind) + 1)})", (path, *kind, tiles))


def locked(folder: Path, how: int = os.O_RDONLY) -> int:
    """The folder, held open and locked, since two runs would write the same. Raises OSError."""
    held = os.open(folder, how)
    try:
        fcntl.flock(held, fcntl.LOCK_EX | fcntl.LOCK_NB)
    except OSError as why:
        os.close(held)
        raise at_work(folder) from why
    return held


def at_work(folder: Path) -> ResultsError:
    """Of a folder that another run has."""
    return ResultsError(f"{folder}: another mvt-audit is at work here")
