"""A PMTiles archive, version 3, in a file that is read by ranges. Its tiles have the archive's own order: zoom by zoom, and
within a zoom along Hilbert's curve."""

import errno
import hashlib
import os
from contextlib import contextmanager
from functools import lru_cache, partial
from typing import Any, BinaryIO, Callable, Dict, Iterator, List, NamedTuple, Optional, Tuple, Union

from .. import foreign
from ..bounds import DIRECTORY, ENTRIES, FAULTS, FILE, LEAVES, RUN, SAID, SLICES
from . import Address, Content, Key, Options, State, Store, StoreError, files
from .archive import GZIP, HEADER, MAGIC, MOST_TILES, NONE, ArchiveError, Directory, Entry, Header, Section, unpacked
from .files import ReadAhead
from .tile_ids import first_of, id_of, place_of
from .unpacking import LIMIT, NotUnpacked


class Where(NamedTuple):
    """A directory: its bytes in the file, and the tile ids that it may have."""

    section: Section
    low: int
    high: int

    def __str__(self) -> str:
        return f"directory at {self.section.offset}"


class Slice(NamedTuple):
    """Of a directory's own entries those from one on up to another."""

    where: Where
    first: int
    end: int


class Own(NamedTuple):
    """How many entries of tiles a directory has, beside those of leaf directories, and how many tiles these name."""

    where: Where
    entries: int
    tiles: int


class Fault(NamedTuple):
    """What of the archive can't be read, why, and behind which tile id that stands."""

    name: str
    why: str
    behind: int = 0


Part = List[Union[Slice, Fault]]


def opened(path: str, options: Options = Options()) -> Optional["PMTiles"]:
    if os.path.isdir(path) or not (path.endswith(".pmtiles") or files.front(path, len(MAGIC)) == MAGIC):
        return None
    return PMTiles(path)


class PMTiles(Store):
    kind = "PMTiles"

    def __init__(self, path: str) -> None:
        self.path = os.path.abspath(path)
        self._header: Optional[Header] = None

    def check(self) -> None:
        try:
            with self._reading() as file:
                if not self._directory(file, self._root()).count:
                    raise StoreError(f"{self.path}: no tiles in this archive")
        except OSError as why:
            raise StoreError(f"{self.path}: {why.strerror}") from why

    def state(self) -> State:
        self.check()
        try:
            with self._reading() as file:
                size, told = os.fstat(file.fileno()).st_size, os.fstat(file.fileno()).st_mtime_ns
                front = foreign.piece(file.fileno(), 0, HEADER)
                tiles = self.header.addressed or self._counted(file)
        except OSError as why:
            raise StoreError(f"{self.path}: {why.strerror}") from why
        return State(min(tiles, MOST_TILES), hashlib.sha256(front + f"{size} {told}".encode()).hexdigest())

    def ranges(self, size: int) -> Iterator[Part]:
        """A part has so many entries, of as many directories as these stand in; or more, of a large directory."""
        part: Part = []
        room = size
        with files.opened(self.path) as file:
            for piece in self._pieces(file):
                if isinstance(piece, Fault):
                    part.append(piece)
                    continue
                least = -(-piece.end // SLICES)
                while piece.end - piece.first >= (wanted := max(room, least if least > size else 0)):
                    part.append(piece._replace(end=piece.first + wanted))
                    yield part
                    piece = piece._replace(first=piece.first + wanted)
                    part, room = [], size
                if piece.first < piece.end:
                    part.append(piece)
                    room -= piece.end - piece.first
        if part:
            yield part

    def tiles(self, part: Part) -> Iterator[Tuple[Address, Content]]:
        with files.opened(self.path) as file:
            for piece in part:
                if isinstance(piece, Fault):
                    yield Address(None, None, None, piece.name), StoreError(piece.why)
                else:
                    yield from self._tiles_of(file, piece)

    def tile(self, address: Address) -> bytes:
        if address.z is None or address.x is None or address.y is None:
            raise FileNotFoundError(f"{self.path}: {address} is no tile")
        return self._tile(id_of(address.z, address.x, address.y))

    def metadata(self) -> Dict[str, Any]:
        with self._reading() as file:
            offset, length = section = self.header.metadata
            section.check("metadata", os.fstat(file.fileno()).st_size)
            if length > SAID:
                raise ValueError(f"its metadata have {length:,} bytes; {SAID:,} are the most")
            content = (
                unpacked(foreign.piece(file.fileno(), offset, length), self.header.internal, SAID + 1)
                if length
                else b"{}"
            )
        if len(content) > SAID:
            raise ValueError(f"its metadata unpack to more than {SAID:,} bytes")
        said = foreign.parsed(content)
        if not isinstance(said, dict):
            raise ValueError("its metadata are no object of JSON")
        first, last = self.header.zooms
        bounds = [each / 10**7 for each in self.header.bounds] if any(self.header.bounds) else None
        return {**said, "minzoom": first, "maxzoom": last, "bounds": bounds}

    # A key is a tile id, and 0 for the tile or 1 for what is wrong behind it.

    def since(self, key: Optional[Key]) -> Iterator[Tuple[Key, Address, Content]]:
        for (last, is_fault), address, content in self._runs((0, 0) if key is None else _checked(key)):
            if is_fault:
                yield (last, 1), address, content
                continue
            for tile_id in range(last - address.tiles + 1, last + 1):
                yield (tile_id, 0), Address(*place_of(tile_id)), content

    def runs(self, key: Optional[Key]) -> Iterator[Tuple[Key, Address, Content]]:
        tile_id, is_fault = (-1, 1) if key is None else _checked(key)
        return self._runs((tile_id + is_fault, 1 - is_fault))

    def _runs(self, first: Tuple[int, int]) -> Iterator[Tuple[Tuple[int, int], Address, Content]]:
        """The tiles from a key on, as many of a run together as are copied at a time."""
        with self._reading() as file:
            content = self._contents(file)
            for found in self._entries(file, self._root(), first[0]):
                if isinstance(found, Fault):
                    if (found.behind, 1) >= first:
                        yield (found.behind, 1), Address(None, None, None, found.name), StoreError(found.why)
                    continue
                end = found.tile_id + found.run
                for tile_id in range(max(found.tile_id, sum(first)), end, RUN):
                    count = min(RUN, end - tile_id)
                    yield (tile_id + count - 1, 0), Address(*place_of(tile_id), None, count), content(*found[2:])

    def first_key(self, z: int) -> Optional[Key]:
        return first_of(z), 0

    def find(self, z: int, x: int, y: int) -> Optional[Key]:
        if max(x, y) >= 1 << z:
            return None  # an archive has no ids beyond the world
        tile_id = id_of(z, x, y)
        with self._reading() as file:
            return None if self._found(file, tile_id) is None else (tile_id, 0)

    def held(self, key: Key) -> bytes:
        tile_id, is_fault = _checked(key)
        if is_fault:
            found = next(self.since(key), None)
            if found is None or found[0] != key:
                raise FileNotFoundError(errno.ENOENT, "nothing is wrong there")
            raise OSError(errno.EIO, str(found[2]))
        return self._tile(tile_id)

    def lying(self, key: Key) -> bytes:
        return self._tile(_checked(key)[0], True)

    @property
    def header(self) -> Header:
        assert self._header is not None, "the state was asked for, or the store checked"
        return self._header

    @contextmanager
    def _reading(self) -> Iterator[BinaryIO]:
        """The file, with its header as it is now. What is wrong with the archive is an OSError."""
        with files.opened(self.path) as file:
            try:
                self._header = Header.of(file.read(HEADER), os.fstat(file.fileno()).st_size)
                yield file
            except ArchiveError as why:
                raise OSError(errno.EIO, str(why)) from why

    def _root(self) -> Where:
        return Where(self.header.root, 0, MOST_TILES)

    def _directory(self, file: BinaryIO, where: Where) -> Directory:
        if where.section.length > DIRECTORY:
            raise ArchiveError(f"it has {where.section.length:,} bytes; {DIRECTORY:,} are the most")
        stored = foreign.piece(file.fileno(), *where.section)
        if len(stored) < where.section.length:
            raise ArchiveError("the file ends in it")
        content = unpacked(stored, self.header.internal, DIRECTORY + 1)
        if len(content) > DIRECTORY:
            raise ArchiveError(f"it unpacks to more than {DIRECTORY:,} bytes")
        return Directory(content, _most_entries(file))

    def _opened(self, file: BinaryIO, where: Where, above: Tuple[Section, ...]) -> Directory:
        """A directory that lies below others. Raises ArchiveError where it can't be read, or doesn't belong there."""
        leaves = self.header.leaves
        if above and sum(where.section) > sum(leaves):
            raise ArchiveError(f"the leaf of tile id {where.low} ends beyond the {leaves.length:,} bytes of leaves")
        if where.section in above:
            raise ArchiveError("it leads in a circle")
        if len(above) > LEAVES:
            raise ArchiveError(f"it lies below more than {LEAVES} others")
        directory = self._directory(file, where)
        if above and directory.first() != where.low:
            raise ArchiveError(f"it begins with tile id {directory.first()}, and the one above says {where.low}")
        return directory

    def _leaf(self, entry: Entry, high: int) -> Where:
        """The leaf directory that an entry leads to."""
        return Where(Section(self.header.leaves.offset + entry.offset, entry.length), entry.tile_id, high)

    def _leaves(self, directory: Directory, high: int) -> Iterator[Where]:
        """The leaf directories of a directory, each with the ids up to the next entry's."""
        pointer: Optional[Entry] = None
        for entry in directory.entries():
            if pointer is not None:
                yield self._leaf(pointer, entry.tile_id)
            pointer = None if entry.run else entry
        if pointer is not None:
            yield self._leaf(pointer, high)

    def _entries(
        self, file: BinaryIO, where: Where, first: int, above: Tuple[Section, ...] = ()
    ) -> Iterator[Union[Entry, Fault]]:
        """The entries of tiles that reach to a tile id or beyond it, in order, those of leaf directories in between; and
        what is wrong, where it stands. Of the directories before the id nothing is read."""
        last, below = where.low, (*above, where.section)
        try:
            pointer: Optional[Entry] = None
            for entry in self._opened(file, where, above).entries(where.low, where.high):
                if pointer is not None and entry.tile_id > first:
                    yield from self._entries(file, self._leaf(pointer, entry.tile_id), first, below)
                if entry.tile_id + entry.run > first and entry.run:
                    yield entry
                pointer, last = None if entry.run else entry, entry.tile_id + max(entry.run, 1) - 1
            if pointer is not None:
                yield from self._entries(file, self._leaf(pointer, where.high), first, below)
        except ArchiveError as why:
            yield Fault(str(where), str(why), last)

    def _walked(self, file: BinaryIO, where: Where, above: Tuple[Section, ...] = ()) -> Iterator[Union[Own, Fault]]:
        """A directory with what it has of its own, and then those below it; or what is wrong with one of them."""
        try:
            directory = self._opened(file, where, above)
            yield Own(where, directory.own(), directory.places())
            if directory.has_leaves():
                for leaf in self._leaves(directory, where.high):
                    yield from self._walked(file, leaf, (*above, where.section))
        except ArchiveError as why:
            yield Fault(str(where), str(why))

    def _owned(self, file: BinaryIO) -> Iterator[Union[Own, Fault]]:
        """All directories, up to as many entries as are read of such an archive."""
        entries, most = 0, _most_entries(file)
        for found in self._walked(file, self._root()):
            entries += found.entries if isinstance(found, Own) else 0
            if entries > most:
                yield Fault(
                    "directories", f"they have more than {most:,} entries, the most that are read of such an archive"
                )
                return
            yield found

    def _counted(self, file: BinaryIO) -> int:
        """How many tiles the whole archive has."""
        tiles = faults = 0
        for found in self._owned(file):
            if isinstance(found, Own):
                tiles += found.tiles
                continue
            faults += 1
            if faults == FAULTS:
                break
        return tiles

    def _pieces(self, file: BinaryIO) -> Iterator[Union[Slice, Fault]]:
        """The own entries of each directory, and what is wrong with the archive."""
        told, found, faults = self.header.addressed, 0, 0
        for each in self._owned(file):
            if isinstance(each, Fault):
                yield each
                faults += 1
                if faults == FAULTS:
                    yield Fault("directories", f"{FAULTS} can't be read; the rest isn't looked at")
                    return
                continue
            found += each.tiles
            if told and found > told:
                yield Fault(str(each.where), f"with it the archive has {found:,} tiles, and its header says {told:,}")
                return
            yield Slice(each.where, 0, each.entries)
        if found < told:
            yield Fault("header", f"it says {told:,} tiles, and the directories have {found:,}")

    def _tiles_of(self, file: BinaryIO, piece: Slice) -> Iterator[Tuple[Address, Content]]:
        """The tiles of a slice, those of a run by the first. What is wrong is told by the slice that it is in."""
        where, first, end = piece
        index, content = 0, self._contents(file)
        try:
            for tile_id, run, offset, length in self._directory(file, where).entries(where.low, where.high):
                if run and index >= first:
                    yield Address(*place_of(tile_id), None, run), content(offset, length)
                index += run > 0
                if index >= end:
                    return
        except ArchiveError as why:
            if index >= first:
                yield Address(None, None, None, str(where)), why

    def _contents(self, file: BinaryIO) -> Callable[[int, int], Union[bytes, Exception]]:
        """What reads tiles by their offset and length. Equal ones in turn have one content."""
        return lru_cache(maxsize=1)(partial(self._content, ReadAhead(file.fileno()), self.header))

    def _content(self, read: ReadAhead, header: Header, offset: int, length: int) -> Union[bytes, Exception]:
        tiles, end = header.tiles, offset + length
        if end > tiles.length:
            return StoreError(f"its bytes end at {end:,} of {tiles.length:,} bytes of tiles")
        length = min(length, FILE)
        try:
            stored = read(tiles.offset + offset, length)
            if len(stored) < length:
                return StoreError("the file ends in it")
            # What unpacks a tile knows gzip by its first bytes.
            return unpacked(stored, header.compression, LIMIT + 1) if header.compression > GZIP else stored
        except ArchiveError as why:
            return NotUnpacked(str(why))
        except OSError as why:
            return why

    def _found(self, file: BinaryIO, wanted: int) -> Optional[Entry]:
        """The entry of a tile, or None. Raises ArchiveError where a directory that may have it can't be read."""
        found = next(self._entries(file, self._root(), wanted), None)
        if isinstance(found, Fault) and found.behind <= wanted:
            raise ArchiveError(f"{found.name}: {found.why}")
        return found if isinstance(found, Entry) and found.tile_id <= wanted else None

    def _tile(self, tile_id: int, as_it_lies: bool = False) -> bytes:
        """A tile, out of the archive's compression where that is none that its first bytes tell. Raises OSError."""
        with self._reading() as file:
            entry = self._found(file, tile_id)
            if entry is None:
                z, x, y = place_of(tile_id)
                raise FileNotFoundError(errno.ENOENT, f"no tile {z}/{x}/{y}")
            header = self.header._replace(compression=NONE) if as_it_lies else self.header
            content = self._content(ReadAhead(file.fileno()), header, *entry[2:])
        if isinstance(content, Exception):
            raise OSError(errno.EIO, str(content)) from content
        return content


def _most_entries(file: BinaryIO) -> int:
    """How many entries are read of an archive."""
    return max(ENTRIES, os.fstat(file.fileno()).st_size)


def _checked(key: Key) -> Tuple[int, int]:
    """A key of an archive. Raises ValueError where it is none."""
    tile_id, is_fault = key
    if not (isinstance(tile_id, int) and isinstance(is_fault, int)):
        raise ValueError("a key is two numbers")
    if not 0 <= tile_id < MOST_TILES or not 0 <= is_fault <= 1:
        raise ValueError("a number is out of range")
    return tile_id, is_fault
