"""What a store says of itself, as a copy of it says the same."""

import json
import sqlite3
from pathlib import Path
from typing import Any, Iterator, Optional, Tuple

from .._shown import shown
from ..stores import Store, StoreError
from ..stores.mbtiles import MBTiles

# What a folder has them in.
FILE = "metadata.json"

# What reading them may raise, and what their numbers may.
UNREADABLE = (OSError, StoreError, ValueError, ArithmeticError, RecursionError, MemoryError)

# Bytes that are a text stay as they are, also where they are no UTF-8.
_INSERT = """insert into metadata values
 (case when ?2 then cast(?1 as text) else ?1 end, case when ?4 then cast(?3 as text) else ?3 end)"""

# A value as it is bound, and whether it is a text.
_Bound = Tuple[Any, bool]


def write(database: sqlite3.Connection, store: Store) -> Optional[str]:
    """Writes what a store says of itself into an MBTiles file, or answers why it doesn't."""
    why = None
    try:
        rows = list(_named(store))
    except UNREADABLE as error:
        why = shown(getattr(error, "strerror", None) or str(error) or "out of memory", 300)
        rows = [("name", Path(store.path).stem), ("format", "pbf")]
    database.executemany(_INSERT, ((*_bound(name), *_bound(value)) for name, value in rows))
    return why


def _named(store: Store) -> Iterator[Tuple[Any, Any]]:
    """The metadata of an MBTiles file: those of another, or what an archive says, by the names of MBTiles."""
    if isinstance(store, MBTiles):
        yield from store.named()
        return
    said = {"name": Path(store.path).stem, **store.metadata(), "format": "pbf"}
    more = {name: said.pop(name) for name in ("vector_layers", "tilestats") if name in said}
    for name, value in said.items():
        if isinstance(value, list) and name in ("bounds", "center"):
            yield name, ",".join(map(str, value))
        elif value is not None:
            yield name, value if isinstance(value, (str, float)) else json.dumps(value, ensure_ascii=False)
    if more:
        yield "json", json.dumps(more, ensure_ascii=False)


def _bound(value: Any) -> _Bound:
    if not isinstance(value, str):
        return value, False
    try:
        return value.encode("utf-8", "surrogateescape"), True
    except UnicodeEncodeError:
        return value.encode("utf-8", "replace"), True
