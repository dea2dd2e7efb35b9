"""What makes tiles large: the bytes of accepted tiles by layer, geometry and key, and the largest tiles of each zoom.

A run of equal tiles counts once. Bytes are those of unpacked tiles in the shortest spelling, which most tiles have.
"""

import sqlite3
from typing import Any, Dict, List, NamedTuple, Optional, Tuple

from libmvt.raw import measured

from .. import bounds
from ..stores import Address

# Of a zoom so many of the largest tiles are kept, and a tile of more bytes is counted as large: tippecanoe makes none.
KEPT, LARGE = 3, 500_000

# A block has these without the store.
_TABLES = {
    "zoom_sizes": ("z integer", "tiles integer", "bytes integer", "large integer"),
    "layer_sizes": (
        "z integer",
        "layer text",
        "tiles integer",
        "features integer",
        "bytes integer",
        "geometry integer",
    ),
    "key_sizes": ("layer text", "key text", "bytes integer"),
    "largest": ("z integer", "x integer", "y integer", "name text", "bytes integer", "features integer"),
}
_BY = {"zoom_sizes": ("z",), "layer_sizes": ("z", "layer"), "key_sizes": ("layer", "key")}
# In SQL, what two rows of a table don't share. No text is a blob.
_SAME = {table: ", ".join(f"ifnull({column}, x'')" for column in columns) for table, columns in _BY.items()}

BLOCK = "\n".join(f"create table {table} ({', '.join(columns)});" for table, columns in _TABLES.items())
TABLES = "\n".join(
    [f"create table {table} (store text not null, {', '.join(columns)});" for table, columns in _TABLES.items()]
    + [f"create unique index {table}_of on {table} (store, {same});" for table, same in _SAME.items()]
)

# What is measured of a tile: of each layer the name, or None, the features, the bytes, those of geometries, and the keys, each
# with its bytes.
Measured = List[Tuple[Optional[str], int, int, int, List[Tuple[Optional[str], int]]]]


def measure(tile: bytes) -> Measured:
    """Nothing for a tile of too many rows."""
    try:
        return measured(tile, bounds.ROWS) or []
    except MemoryError:
        return []


# Of a layer of a zoom the tiles, the features, the bytes and those of geometries; and its keys, which all zooms share.
_Entry = Tuple[List[int], Dict[Optional[str], int]]


class _Zoom:
    """The sizes of a zoom: its tiles, its layers by name, and its largest tiles, the largest first."""

    def __init__(self) -> None:
        self.tiles = self.bytes = self.large = self.least = 0
        self.layers: Dict[Optional[str], _Entry] = {}
        self.largest: List[Tuple[int, Address, int]] = []

    def keep(self, size: int, address: Address, features: int) -> None:
        """Keeps a tile if it is among the largest. None that is smaller than the least of these comes here."""
        self.largest.append((size, address, features))
        self.largest.sort(key=_order)
        del self.largest[KEPT:]
        if len(self.largest) == KEPT:
            self.least = self.largest[-1][0]


class Sizes:
    """The sizes of a part."""

    def __init__(self) -> None:
        self._zooms: Dict[Optional[int], _Zoom] = {}
        self._keys: Dict[Optional[str], Dict[Optional[str], int]] = {}
        # How many names more are counted.
        self._layers_left, self._keys_left = bounds.NAMED, bounds.NAMED

    def add(self, address: Address, size: int, layers: Measured) -> None:
        """An accepted tile of so many bytes."""
        z, features = address[0], 0
        zoom = self._zooms.get(z)
        if zoom is None:
            zoom = self._zooms[z] = _Zoom()
        zoom.tiles += 1
        zoom.bytes += size
        zoom.large += size > LARGE
        for name, count, length, geometry, costs in layers:
            features += count
            try:
                entry, keys = zoom.layers[name]
            except KeyError:
                entry, keys = self._new_layer(zoom, name)
            entry[0] += 1
            entry[1] += count
            entry[2] += length
            entry[3] += geometry
            for key, cost in costs:
                if key in keys:
                    keys[key] += cost
                else:
                    self._new_key(keys, key, cost)
        if size >= zoom.least:
            zoom.keep(size, address, features)

    def _new_layer(self, zoom: "_Zoom", name: Optional[str]) -> "_Entry":
        """The entry of a name that has none, or is too long to be one. Behind the most names there is one for all."""
        place = None if name is None else bounds.cut(name)
        if place not in zoom.layers:
            if not self._layers_left:
                place = None
            else:
                self._layers_left -= 1
        return zoom.layers.setdefault(place, ([0, 0, 0, 0], self._keys.setdefault(place, {})))

    def _new_key(self, keys: Dict[Optional[str], int], key: Optional[str], cost: int) -> None:
        place = None if key is None else bounds.cut(key)
        if place not in keys:
            if not self._keys_left:
                keys, place = self._keys.setdefault(None, {}), None
            else:
                self._keys_left -= 1
        keys[place] = keys.get(place, 0) + cost

    def write(self, database: sqlite3.Connection) -> None:
        def fill(table: str, rows: Any) -> None:
            database.executemany(f"insert into {table} values ({', '.join('?' * len(_TABLES[table]))})", rows)

        zooms = self._zooms.items()
        fill("zoom_sizes", ((z, zoom.tiles, zoom.bytes, zoom.large) for z, zoom in zooms))
        layers = ((z, name, entry) for z, zoom in zooms for name, (entry, _) in zoom.layers.items())
        fill("layer_sizes", ((z, name, *entry) for z, name, entry in layers))
        keys = ((name, *each) for name, costs in self._keys.items() for each in costs.items())
        fill("key_sizes", keys)
        tiles = ((z, *each) for z, zoom in zooms for each in zoom.largest)
        fill("largest", ((z, at.x, at.y, at.name, size, features) for z, size, at, features in tiles))


def _order(tile: Tuple[int, Address, int]) -> Tuple[int, int, int, str]:
    """The largest first, and of equal ones the same whichever comes first."""
    size, address, _ = tile
    return -size, -1 if address.x is None else address.x, -1 if address.y is None else address.y, address.name or ""


def add(database: sqlite3.Connection, block: str, store: str) -> None:
    """Adds a block's sizes to those of the results."""
    for table, columns in _BY.items():
        _add_counts(database, block, store, table, columns)
    database.execute(f"insert into main.largest select ?, * from {block}.largest", (store,))
    database.execute(
        "delete from main.largest where rowid in (select rowid from (select rowid, row_number() over ("
        "partition by store, z order by bytes desc, ifnull(x, -1), ifnull(y, -1), ifnull(name, '')) as place"
        f" from main.largest) where place > {KEPT})"
    )


def _add_counts(database: sqlite3.Connection, block: str, store: str, table: str, columns: Tuple[str, ...]) -> None:
    summed = [column.split()[0] for column in _TABLES[table] if column.split()[0] not in columns]
    named = ", ".join(columns)
    [held] = database.execute(f"select count(*) from main.{table}").fetchone()
    if held >= bounds.NAMED_IN_ALL and table != "zoom_sizes":
        same = " and ".join(f"ifnull(old.{column}, x'') = ifnull(new.{column}, x'')" for column in columns)
        known = f"exists (select 1 from main.{table} old where old.store = ?1 and {same})"
        named = ", ".join(f"case when {known} then {each} end" if each != "z" else each for each in columns)
    adding = ", ".join(f"{column} = {column} + excluded.{column}" for column in summed)
    database.execute(
        f"insert into main.{table} (store, {', '.join(columns)}, {', '.join(summed)})"
        f" select ?1, {named}, {', '.join(summed)} from {block}.{table} new where true"
        f" on conflict (store, {_SAME[table]}) do update set {adding}",
        (store,),
    )


class Layer(NamedTuple):
    """A layer, or all without a name here, by the bytes of all tiles: those of geometries and of attributes, which may stand
    under other keys than are named here, and of the layer whole."""

    layer: Optional[str]
    tiles: int
    features: int
    bytes: int
    geometry: int
    attributes: int


def layers(database: sqlite3.Connection) -> List[Layer]:
    """The largest first."""
    attributes = dict(database.execute("select layer, sum(bytes) from key_sizes group by layer"))
    query = """select layer, sum(tiles), sum(features), sum(bytes), sum(geometry)
 from layer_sizes group by layer order by sum(bytes) desc, layer"""
    return [Layer._make((*row, attributes.get(row[0], 0))) for row in database.execute(query)]


def told(database: sqlite3.Connection) -> Dict[str, Any]:
    """The sizes as they become JSON."""

    def listed(names: str, query: str) -> List[Dict[str, Any]]:
        return [dict(zip(names.split(), row)) for row in database.execute(query)]

    return {
        "zooms": listed(
            "z tiles bytes large",
            "select z, sum(tiles), sum(bytes), sum(large) from zoom_sizes group by z order by z is null, z",
        ),
        "layers": [layer._asdict() for layer in layers(database)],
        "keys": listed(
            "layer key bytes",
            "select layer, key, sum(bytes) from key_sizes group by layer, key order by sum(bytes) desc, layer, key limit 100",
        ),
        "largest": listed(
            "store z x y name bytes features",
            "select store, z, x, y, name, bytes, features from largest order by bytes desc, z, x, y, name, store",
        ),
    }
