"""An MBTiles file. It is opened for reading only, and its rows are counted from the south, as MBTiles does."""

import errno
import hashlib
import os
import reprlib
import sqlite3
from contextlib import closing, contextmanager
from typing import Any, Dict, Iterator, List, NamedTuple, Optional, Tuple, Union

from .. import foreign
from .._shown import shown
from ..bounds import FILE, SAID, SAID_ROWS
from . import Address, Content, Key, Options, State, Store, StoreError, files
from .sqlite import Watched

_MAGIC = b"SQLite format 3\0"
# The versions of a file that is written by a log, behind its page size.
_LOGGED = b"\2\2"
_PLACE = ("zoom_level", "tile_column", "tile_row")
_BITS = 1 << 63
# How many rows a zoom has, which a number of 64 bits has to tell.
_SIDES = {z: 1 << z for z in range(63)}


class Spot(NamedTuple):
    """Where a row stands in the order of rows: so many behind the first one that has some values. None are those of the
    front."""

    values: Optional[Key]
    behind: int = 0


class Rows(NamedTuple):
    """A range of row numbers, from one up to another one and with it."""

    first: int
    last: int


class Some(NamedTuple):
    """A range of so many rows in the order of z, x and y."""

    spot: Spot
    most: int


def opened(path: str, options: Options = Options()) -> Optional["MBTiles"]:
    if os.path.isdir(path) or not (path.endswith(".mbtiles") or files.front(path, 16) == _MAGIC):
        return None
    return MBTiles(path)


class MBTiles(Store):
    kind = "MBTiles"

    def __init__(self, path: str) -> None:
        self.path = os.path.abspath(path)
        # The name of the numbers of rows, where these part the tiles.
        self._numbers: Optional[str] = None
        self._is_logged = False

    def check(self) -> None:
        self._check_file()
        try:
            with self._reading() as database:
                self._check_tables(database)
        except sqlite3.Error as why:
            raise self._error(why) from why

    def state(self) -> State:
        self.check()
        try:
            with self._reading() as database:
                tiles = self._survey(database)
        except sqlite3.Error as why:
            raise self._error(why) from why
        return State(tiles, self._digest())

    def ranges(self, size: int) -> Iterator[Union[Rows, Some]]:
        try:
            with self._reading() as database:
                if self._numbers:
                    yield from self._spans(database, size)
                else:
                    yield from _steps(database, size)
        except sqlite3.Error as why:
            raise self._error(why) from why

    def tiles(self, part: Union[Rows, Some]) -> Iterator[Tuple[Address, Content]]:
        try:
            with self._reading() as database:
                if isinstance(part, Rows):
                    yield from self._numbered(database, part)
                else:
                    for *_, address, content in _told(database, _PLACE, *part):
                        yield address, content
        except sqlite3.Error as why:
            yield Address(None, None, None, "tiles"), why

    def tile(self, address: Address) -> bytes:
        if address.z is None or address.x is None or address.y is None:
            raise FileNotFoundError(f"{self.path}: no tile {address}")
        return self._held((address.z, address.x, _turned(address.z, address.y)), _PLACE)

    def metadata(self) -> Dict[str, Any]:
        names = ", ".join(f"'{name}'" for name in ("minzoom", "maxzoom", "bounds", "json"))
        query = f"select name, case when length(value) <= {SAID} then value end from metadata where name in ({names})"
        try:
            with self._reading() as database:
                if database.row("select 1 from sqlite_master where lower(name) = 'metadata'") is None:
                    return {}
                return {str(name): value for name, value in database.rows(f"{query} limit 100")}
        except sqlite3.Error as why:
            raise self._error(why) from why

    def named(self) -> List[Tuple[Any, Any]]:
        """All that its table of metadata says, in its order. Raises StoreError where it can't be read, or is too much."""
        size = "length(name) + length(value)"
        query = f"select name, case when {size} <= {SAID} then value end, {size} from metadata where {size} >= 0"
        held: List[Tuple[Any, Any]] = []
        left = SAID
        try:
            with self._reading() as database:
                if database.row("select 1 from sqlite_master where lower(name) = 'metadata'") is None:
                    return []
                for name, value, length in database.rows(f"{query} limit {SAID_ROWS + 1}"):
                    left -= length
                    if left < 0 or len(held) == SAID_ROWS:
                        raise StoreError(
                            f"{self.path}: its metadata are more than {SAID:,} bytes, or {SAID_ROWS:,} rows"
                        )
                    held.append((name, value))
        except sqlite3.Error as why:
            raise self._error(why) from why
        return held

    # A key is a place, or a row's number where no index has the places in order; and behind it how many rows further, where
    # a row has no place of its own.

    def since(self, key: Optional[Key]) -> Iterator[Tuple[Key, Address, Content]]:
        try:
            with self._reading() as database:
                order = _order(database)
                first = Spot(None) if key is None else _spot(order, key)
                for values, behind, address, content in _told(database, order, first):
                    yield _key(values, behind), address, content
        except sqlite3.Error as why:
            yield key or ("", 0), Address(None, None, None, "tiles"), why

    def first_key(self, z: int) -> Optional[Key]:
        try:
            with self._reading() as database:
                return (z, 0, 0) if _order(database) == _PLACE else None
        except sqlite3.Error as why:
            raise OSError(errno.EIO, shown(str(why))) from why

    def find(self, z: int, x: int, y: int) -> Optional[Key]:
        try:
            with self._reading() as database:
                query = f"select {', '.join(_order(database))} from tiles where {_equal(_PLACE)}"
                return database.row(query, (z, x, _turned(z, y)))
        except sqlite3.Error as why:
            raise OSError(errno.EIO, shown(str(why))) from why

    def held(self, key: Key) -> bytes:
        return self._held(key)

    def _held(self, key: Key, order: Optional[Tuple[str, ...]] = None) -> bytes:
        try:
            with self._reading() as database:
                order = order or _order(database)
                found = _one(database, order, _spot(order, key))
        except sqlite3.Error as why:
            raise OSError(errno.EIO, shown(str(why))) from why
        if found is None:
            raise FileNotFoundError(errno.ENOENT, "no such tile")
        if isinstance(found, Exception):
            raise OSError(errno.EIO, str(found)) from found
        return found

    @contextmanager
    def _reading(self) -> Iterator[Watched]:
        with closing(Watched(self.path, self._is_logged)) as database:
            yield database

    def _error(self, why: Exception) -> StoreError:
        return StoreError(f"{self.path}: {shown(str(why))}")

    def _check_file(self) -> None:
        """What SQLite tells in words that say little."""
        try:
            with files.opened(self.path) as file:
                head, size = file.read(100) or b"", os.fstat(file.fileno()).st_size
        except OSError as why:
            raise StoreError(f"{self.path}: {why.strerror}") from why
        if not head.startswith(_MAGIC):
            raise StoreError(f"{self.path}: no SQLite file, so no MBTiles")
        self._is_logged = head[18:20] == _LOGGED
        page = int.from_bytes(head[16:18], "big")
        wanted = int.from_bytes(head[28:32], "big") * (65536 if page == 1 else page)
        if size < wanted and head[24:28] == head[92:96]:
            raise StoreError(f"{self.path}: cut off: {size:,} of {wanted:,} bytes are there")

    def _check_tables(self, database: Watched) -> None:
        try:
            database.row(f"select {', '.join(_PLACE)}, tile_data from tiles limit 0")
        except sqlite3.OperationalError as why:
            raise StoreError(f"{self.path}: no MBTiles: {shown(str(why))}") from why
        try:
            told = database.row("select value from metadata where name = 'format'")
        except sqlite3.OperationalError:
            told = None
        if told is not None and told[0] not in ("pbf", "mvt"):
            raise StoreError(
                f"{self.path}: its tiles are of the format {shown(reprlib.repr(told[0]))}, and not of 'pbf'"
            )
        if database.row("select 1 from tiles limit 1") is None:
            raise StoreError(f"{self.path}: no tiles in this MBTiles file")

    def _survey(self, database: Watched) -> int:
        """Counts the tiles, and chooses how they are parted: by row numbers where these lie close together."""
        # SQLite does a `count(*)` in one step, which can't be ended.
        [tiles] = database.row("select count(1) from tiles") or (0,)
        self._numbers = _numbers(database)
        if self._numbers:
            low, high = self._ends(database)
            if low is None or high - low >= 8 * tiles:
                self._numbers = None
        return foreign.whole(tiles, 0, _BITS) or 0

    def _ends(self, database: Watched) -> Tuple[Any, ...]:
        """The first and the last number of a row."""
        ends = f"select (select min({self._numbers}) from tiles), (select max({self._numbers}) from tiles)"
        return database.row(ends) or (None, None)

    def _digest(self) -> str:
        """Of the file's size and times and SQLite's count of changes, and of the log that may stand beside it."""
        digest = hashlib.sha256(files.front(self.path, 100))
        for path in (self.path, self.path + "-wal"):
            if os.path.exists(path) and os.path.getsize(path):
                digest.update(f"{os.path.getsize(path)} {os.stat(path).st_mtime_ns}\n".encode())
        return digest.hexdigest()

    def _spans(self, database: Watched, size: int) -> Iterator[Rows]:
        """Ranges of row numbers. Each begins at a row that is there."""
        low, high = self._ends(database)
        query = f"select {self._numbers} from tiles where {self._numbers} > ? order by {self._numbers} limit 1"
        while low is not None and low <= high:
            last = min(low + size - 1, high)
            yield Rows(low, last)
            try:
                [low] = database.row(query, (last,)) or (None,)
            except sqlite3.DatabaseError:
                low = last + 1  # a damaged page, which its range tells

    def _numbered(self, database: Watched, part: Rows) -> Iterator[Tuple[Address, Content]]:
        """The rows of a range, and row by row what stands behind one that can't be read."""
        number = self._numbers
        query = f"select {_selected(number)} from tiles where {number} between ? and ?"
        last = part.first - 1
        try:
            for row in database.rows(f"{query} order by {number}", part):
                last = row[0]
                yield _address(row), _content(database, row)
            return
        except sqlite3.Error:
            pass
        for last in range(last + 1, part.last + 1):
            try:
                found = foreign.some(database.rows(query, (last, last)), 1)
            except sqlite3.Error as why:
                yield Address(None, None, None, f"row {last}"), why
            else:
                yield from ((_address(row), _content(database, row)) for row in found)


# A row that is told: its spot, where it stands for others, and its tile.
_Told = Tuple[Optional[Key], int, Address, Content]


def _told(database: Watched, order: Tuple[str, ...], spot: Spot, count: int = -1) -> Iterator[_Told]:
    """So many rows from one on, or all, in an order; and what can't be read, row by row."""
    values, behind = spot
    while count:
        found: Optional[_Told] = None
        try:
            for found in _rows(database, order, Spot(values, behind), count):
                count -= 1
                yield found
            return
        except sqlite3.Error as why:
            if found is not None:
                values, behind = found[0], found[1] + 1
            places = _places(database, order, Spot(values, behind))
            yield values, behind, places[0] if places else Address(None, None, None, "the tiles behind"), why
            if len(places) < 2:
                return
            behind, count = behind + 1, count - 1


def _rows(database: Watched, order: Tuple[str, ...], spot: Spot, count: int) -> Iterator[_Told]:
    """The rows from one on. A row's spot is its own where it has a place that no other one has, and else is counted from
    the one before it that has."""
    values, behind = spot
    is_numbered = order != _PLACE
    columns = slice(0, 1) if is_numbered else slice(1, 4)
    where, bound = _from(order, spot)
    query = f"select {_selected(_numbers(database))} from tiles {where} limit {count} offset {behind}"
    for row in database.rows(query, bound):
        address, found = _address(row), row[columns]
        if found != values and (is_numbered or address.z is not None):
            values, behind = found, 0
        yield values, behind, address, _content(database, row)
        behind += 1


def _places(database: Watched, order: Tuple[str, ...], spot: Spot) -> List[Address]:
    """Where a row that can't be read stands, and the one behind it, if that can be told."""
    where, bound = _from(order, spot)
    columns = ", ".join(map(_named, order))
    try:
        rows = foreign.some(
            database.rows(f"select {columns} from tiles {where} limit 2 offset {spot.behind}", bound), 2
        )
    except sqlite3.Error:
        return []
    return [_address((None, *row)) if order == _PLACE else Address(None, None, None, f"row {row[0]}") for row in rows]


def _one(database: Watched, order: Tuple[str, ...], spot: Spot) -> Optional[Union[bytes, Exception]]:
    """The tile of a row."""
    where, bound = _from(order, spot)
    if spot.values is not None and not spot.behind:
        where = f"where {_equal(order)}"
    row = database.row(f"select {_selected(_numbers(database))} from tiles {where} limit 1 offset {spot.behind}", bound)
    return None if row is None else _content(database, row)


def _steps(database: Watched, size: int) -> Iterator[Some]:
    """Ranges of so many rows each, in the order of z, x and y. Each begins at a place of its own if it can."""
    spot = Spot(None)
    columns = ", ".join(map(_named, _PLACE))
    while True:
        yield Some(spot, size)
        where, bound = _from(_PLACE, spot)
        behind = spot.behind + size
        last, *found = [*database.rows(f"select {columns} from tiles {where} limit 2 offset {behind - 1}", bound), None]
        if not found or found[0] is None:
            return
        is_place = found[0] != last and all(type(each) is int for each in found[0])
        spot = Spot(found[0]) if is_place else Spot(spot.values, behind)


# What a value may be: a number, or the front of what else it is as a text.
def _named(column: str) -> str:
    return f"case typeof({column}) when 'integer' then {column} else substr(cast({column} as text), 1, 100) end"


_DATA = f"case when length(tile_data) <= {FILE} then tile_data end, length(tile_data)"


def _selected(numbers: Optional[str]) -> str:
    """The columns of a row: its number, its place, its data if that isn't too much, and how much it is."""
    return ", ".join((numbers or "null", *map(_named, _PLACE), _DATA))


def _numbers(database: Watched) -> Optional[str]:
    """The name of the numbers of rows: the first that no column has; None where rows have none, as in a view."""
    if (
        database.row("select 1 from sqlite_master where lower(name) = 'tiles' and type = 'table' and rootpage > 0")
        is None
    ):
        return None
    columns = {str(row[1]).lower() for row in database.rows("pragma table_xinfo(tiles)")}
    for name in ("rowid", "_rowid_", "oid"):
        if name not in columns:
            try:
                database.row(f"select {name} from tiles limit 0")
            except sqlite3.OperationalError:
                return None  # a table without row numbers
            return name
    return None


def _order(database: Watched) -> Tuple[str, ...]:
    """By what tiles come one after another without being sorted: their places, or else the numbers of rows."""
    plan = database.rows(f"explain query plan select 1 from tiles order by {', '.join(_PLACE)} limit 1")
    is_sorted = any("TEMP B-TREE" in str(step[-1]) for step in plan)
    numbers = _numbers(database) if is_sorted else None
    return (numbers,) if numbers else _PLACE


def _equal(columns: Tuple[str, ...]) -> str:
    return " and ".join(f"{column} = ?" for column in columns)


def _from(order: Tuple[str, ...], spot: Spot) -> Tuple[str, Key]:
    """The rows from a spot's values on, in order, and what is bound."""
    names = ", ".join(order)
    if spot.values is None:
        return f"order by {names}", ()
    return f"where ({names}) >= ({', '.join('?' * len(order))}) order by {names}", spot.values


def _key(values: Optional[Key], behind: int) -> Key:
    """The key of a spot."""
    if values is None:
        return "", behind
    return (*values, behind) if behind else values


def _spot(order: Tuple[str, ...], key: Key) -> Spot:
    """The spot of a key. Raises ValueError where it is none."""
    is_front = key[:1] == ("",)
    width = 1 if is_front else len(order)
    values, behind = key[:width], key[width:] or (0,)
    numbers = behind if is_front else (*values, *behind)
    if len(values) < width or len(behind) > 1 or (is_front and len(key) < 2):
        raise ValueError("no key of an MBTiles file")
    if not all(isinstance(each, int) and -_BITS <= each < _BITS for each in numbers) or behind[0] < 0:
        raise ValueError("no key of an MBTiles file")
    return Spot(None if is_front else values, behind[0])


def _content(database: Watched, row: Tuple[Any, ...]) -> Union[bytes, Exception]:
    """The tile of a row, as `_selected` has it."""
    data, size = row[4:]
    if isinstance(data, bytes):
        return data
    if data is not None:
        return str(data).encode("utf-8", "surrogateescape")
    return b"" if size is None else _large(database, row[0], size)


def _large(database: Watched, number: Optional[int], size: int) -> Union[bytes, Exception]:
    """The front of a large tile, which decides: of one that stands in the file. What a view makes isn't made."""
    if number is not None and hasattr(database, "blobopen"):  # from Python 3.11 on
        try:
            with database.blobopen("tiles", "tile_data", number, readonly=True) as blob:
                front: bytes = blob.read(FILE)
                return front
        except sqlite3.Error:
            pass
    return StoreError(f"it has {size:,} bytes, and {FILE:,} are read of a tile at most")


def _turned(z: int, y: int) -> int:
    """A row counted from the other end."""
    return (1 << z) - 1 - y


def _address(row: Tuple[Any, ...]) -> Address:
    """Where a row stands, as `_selected` has it: a place, with a name too where its zoom doesn't have it, or a name."""
    z, x, y = row[1:4]
    side = _SIDES.get(z)
    if side is not None and type(x) is int and type(y) is int:
        north = side - 1 - y
        if 0 <= x < side and 0 <= north < side:
            return Address(z, x, north)
        if -_BITS <= north < _BITS:
            return Address(z, x, north, f"{z}/{x}/{north}")
    return Address(None, None, None, f"{_spelled(z)}/{_spelled(x)}/{_spelled(y)}")


def _spelled(value: Any) -> str:
    return str(value).encode("utf-8", "surrogateescape").decode("utf-8", "backslashreplace")
