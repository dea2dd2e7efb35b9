"""What viewers stumble over in tiles that keep every rule, as `mvt lint` says it: how it is kept, counted and told."""

import sqlite3
from collections import Counter
from typing import Any, Dict, List, NamedTuple, Optional, Sequence, Tuple

from libmvt import Finding

from ..stores import Address

# A block counts the tiles that have a kind, and has one of them as an example; the results have the same by store.
BLOCK = """
create table finding_counts (z integer, finding text, tiles integer);
create table finding_examples (
  z integer, finding text, x integer, y integer, name text, lint text, layer integer, feature integer);
"""
TABLES = """
create table finding_counts (store text not null, z integer, finding text not null, tiles integer not null);
create table finding_examples (
  store text not null, z integer, finding text not null, x integer, y integer, name text, lint text not null,
  layer integer not null, feature integer);
create unique index finding_examples_of on finding_examples (store, ifnull(z, -1), finding);
"""

# Of two examples the one with the least x, y and name stays, so that it is the same one whichever part comes first.
_ADD_EXAMPLES = """insert into main.finding_examples select ?, * from {block}.finding_examples where true
 on conflict (store, ifnull(z, -1), finding) do update
 set x = excluded.x, y = excluded.y, name = excluded.name, lint = excluded.lint, layer = excluded.layer,
 feature = excluded.feature
 where (ifnull(excluded.x, -1), ifnull(excluded.y, -1), ifnull(excluded.name, ''))
 < (ifnull(finding_examples.x, -1), ifnull(finding_examples.y, -1), ifnull(finding_examples.name, ''))"""


class Found:
    """What is found in a part: in how many tiles of a zoom each kind is, and in which one for example."""

    def __init__(self) -> None:
        self._tiles: "Counter[Tuple[Optional[int], str]]" = Counter()
        self._examples: Dict[Tuple[Optional[int], str], Tuple[Address, Finding]] = {}

    def add(self, address: Address, found: Sequence[Finding]) -> None:
        """A tile, and the first finding of each kind in it."""
        for finding in found:
            kind = address.z, finding.kind
            self._tiles[kind] += address.tiles
            if kind not in self._examples or _order(address) < _order(self._examples[kind][0]):
                self._examples[kind] = address, finding

    def write(self, database: sqlite3.Connection) -> None:
        counts = ((*kind, tiles) for kind, tiles in self._tiles.items())
        database.executemany("insert into finding_counts values (?, ?, ?)", counts)
        rows = (
            (*kind, at.x, at.y, at.name, str(it), it.layer, it.feature) for kind, (at, it) in self._examples.items()
        )
        database.executemany("insert into finding_examples values (?, ?, ?, ?, ?, ?, ?, ?)", rows)


def _order(address: Address) -> Tuple[int, int, str]:
    return -1 if address.x is None else address.x, -1 if address.y is None else address.y, address.name or ""


def add_examples(database: sqlite3.Connection, block: str, store: str) -> None:
    """Adds a block's examples to those of the results."""
    database.execute(_ADD_EXAMPLES.format(block=block), (store,))


class Kind(NamedTuple):
    """A kind of finding, in how many tiles it is, in how many of each zoom, and one of these of the lowest zoom: its store,
    its address, and its first finding of the kind, as `mvt lint` prints it and by its layer and its feature."""

    name: str
    tiles: int
    zooms: List[Tuple[Optional[int], int]]
    store: str
    address: Address
    lint: str
    layer: int
    feature: Optional[int]

    def told(self) -> Dict[str, Any]:
        """The same as it becomes JSON."""
        zooms = [{"z": z, "tiles": tiles} for z, tiles in self.zooms]
        z, x, y, name, _ = self.address
        example = {"store": self.store, "z": z, "x": x, "y": y, "name": name, "lint": self.lint}
        return {"finding": self.name, "tiles": self.tiles, "zooms": zooms, "example": example}


def kinds(database: sqlite3.Connection) -> List[Kind]:
    """Those that were found, that of most tiles first."""
    zooms: Dict[str, List[Tuple[Optional[int], int]]] = {}
    counts = "select finding, z, sum(tiles) from finding_counts group by finding, z order by z is null, z"
    for name, z, tiles in database.execute(counts):
        zooms.setdefault(name, []).append((z, tiles))
    found = [_kind(database, name, counted) for name, counted in zooms.items()]
    return sorted(found, key=lambda kind: (-kind.tiles, kind.name))


def _kind(database: sqlite3.Connection, name: str, zooms: List[Tuple[Optional[int], int]]) -> Kind:
    query = """select store, z, x, y, name, lint, layer, feature from finding_examples where finding = ?
 order by z is null, z, store limit 1"""
    store, z, x, y, file, *found = database.execute(query, (name,)).fetchone()
    return Kind(name, sum(tiles for _, tiles in zooms), zooms, store, Address(z, x, y, file), *found)
