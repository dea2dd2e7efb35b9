"""A PMTiles archive, version 3, as it is laid out: its header, and its directories out of their compression."""

import importlib
import struct
import zlib
from typing import Any, Iterator, NamedTuple, Tuple

from .. import bounds
from .tile_ids import DEEPEST, first_of

MAGIC = b"PMTiles"
HEADER = 127

# How many tiles an archive may name: one at each place.
MOST_TILES = first_of(DEEPEST + 1)

_FIELDS = struct.Struct("<7sB11Q6B4i")
_MVT = 1
_TYPES = {1: "MVT", 2: "PNG", 3: "JPEG", 4: "WebP", 5: "AVIF"}
NONE, GZIP, BROTLI, ZSTD = 1, 2, 3, 4
_COMPRESSIONS = {NONE: "none", GZIP: "gzip", BROTLI: "brotli", ZSTD: "zstd"}
_MODULES = {BROTLI: ("brotli", "python3-brotli of Debian"), ZSTD: ("zstandard", "python3-zstandard of Debian 12")}
# Few enough that what they unpack to is some megabytes at most.
_BROTLI_STEP, _ZSTD_STEP = 4, 256
_ENDLESS = 1 << 64
_EARLIER_BYTES = bytes(range(128, 256))


class ArchiveError(Exception):
    """What isn't as it should be in an archive, in a line."""


class Section(NamedTuple):
    """Where something stands in the file."""

    offset: int
    length: int

    def check(self, what: str, size: int) -> None:
        """Raises ArchiveError where it lies beyond a file of so many bytes."""
        if sum(self) > size:
            raise ArchiveError(f"the {what} end at {sum(self):,}, and the file has {size:,} bytes")


class Header(NamedTuple):
    """What the first 127 bytes say; the bounds in ten millionths of a degree."""

    root: Section
    leaves: Section
    tiles: Section
    addressed: int
    internal: int
    compression: int
    metadata: Section
    zooms: Tuple[int, int]
    bounds: Tuple[int, int, int, int]

    @classmethod
    def of(cls, content: bytes, size: int) -> "Header":
        """The header of a file of so many bytes."""
        if len(content) < HEADER:
            raise ArchiveError(f"cut off: the header has 127 bytes, and {len(content)} are there")
        magic, version, *numbers = _FIELDS.unpack_from(content)
        if magic != MAGIC:
            raise ArchiveError("no PMTiles: it doesn't begin with 'PMTiles'")
        if version != 3:
            raise ArchiveError(f"PMTiles of version {version}; version 3 is read")
        _, internal, compression, kind, first, last, *bounds = numbers[11:]
        if kind != _MVT:
            raise ArchiveError(f"its tiles are of the type {_TYPES.get(kind, kind)}, and not MVT")
        for what, code in (("directories", internal), ("tiles", compression)):
            _check_compression(what, code)
        root, metadata, leaves, tiles = (Section(*numbers[at : at + 2]) for at in (0, 2, 4, 6))
        for what, section in (("root directory", root), ("leaf directories", leaves), ("tiles", tiles)):
            section.check(what, size)
        west, south, east, north = bounds
        return cls(
            root, leaves, tiles, numbers[8], internal, compression, metadata, (first, last), (west, south, east, north)
        )


class Entry(NamedTuple):
    """Tiles of equal content, one behind the other, or a leaf directory, whose run is 0."""

    tile_id: int
    run: int
    offset: int
    length: int


class Directory:
    """A directory, whose entries are decoded as they are asked for: four columns of varints behind their count."""

    def __init__(self, content: bytes, most: int) -> None:
        """Raises ArchiveError where it isn't as it should be, or has more entries than that."""
        self.count, at = _count(content)
        if self.count > most:
            raise ArchiveError(f"it has {self.count:,} entries; {most:,} are the most that are read of such an archive")
        columns = []
        for name in ("tile ids", "run lengths", "lengths", "offsets"):
            end = _behind(content, at, self.count)
            if end < 0:
                raise ArchiveError(f"it ends early, in the {name} of its {self.count:,} entries")
            columns.append(content[at:end])
            at = end
        if at != len(content):
            raise ArchiveError(f"{len(content) - at:,} bytes stand behind its {self.count:,} entries")
        self._ids, self._runs, self._lengths, self._offsets = columns

    def first(self) -> int:
        """The tile id of its first entry; -1 where there is none."""
        return next(_numbers(self._ids), -1)

    def own(self) -> int:
        """How many of its entries are of tiles, a run of equal ones being one."""
        return self.count - sum(run == 0 for run in _numbers(self._runs))

    def places(self) -> int:
        """How many tiles these name."""
        return sum(_numbers(self._runs))

    def has_leaves(self) -> bool:
        return 0 in _numbers(self._runs)

    def entries(self, low: int = 0, high: int = MOST_TILES) -> Iterator[Entry]:
        """The entries in order, whose tile ids lie from one on up to another. Raises ArchiveError behind the last that is as
        it should be."""
        tile_id = behind = at = 0
        columns = zip(_numbers(self._ids), _numbers(self._runs), _numbers(self._lengths), _numbers(self._offsets))
        for index, (step, run, length, offset) in enumerate(columns):
            tile_id += step
            if tile_id < behind:
                raise ArchiveError(f"entry {index} (tile id {tile_id}) is out of order or overlaps the one before it")
            behind = tile_id + (run or 1)
            if tile_id + run > MOST_TILES:
                raise ArchiveError(f"entry {index} has tile ids beyond zoom {DEEPEST}")
            if length == 0:
                raise ArchiveError(f"entry {index} (tile id {tile_id}) has no bytes")
            if offset:
                at = offset - 1
            elif index == 0:
                raise ArchiveError("its first entry stands behind one before it, and there is none")
            if tile_id < low or behind > high:
                raise ArchiveError(f"tile id {tile_id} isn't among those that the directory above says")
            yield Entry(tile_id, run, at, length)
            at += length


def unpacked(stored: bytes, compression: int, most: int) -> bytes:
    """Bytes out of a compression, at most so many and a few more. Raises ArchiveError where they don't unpack."""
    if compression == NONE:
        return stored
    if compression == GZIP:
        return _gunzipped(stored, most)
    _check_compression("bytes", compression)
    module: Any = importlib.import_module(_MODULES[compression][0])
    try:
        if compression == ZSTD:
            return _unzstded(module.ZstdDecompressor(max_window_size=1 << 27), stored, most)
        return _unbrotlied(module.Decompressor(), stored, most)
    except module.ZstdError if compression == ZSTD else module.error as why:
        raise ArchiveError(f"{_COMPRESSIONS[compression]}: {why}") from why


def _gunzipped(stored: bytes, most: int) -> bytes:
    stream = zlib.decompressobj(31)
    try:
        made = stream.decompress(stored, most)
    except zlib.error as why:
        raise ArchiveError(f"gzip: {str(why).rpartition(': ')[2]}") from why
    if not stream.eof and len(made) < most:
        raise ArchiveError("gzip: cut off")
    return made


def _unbrotlied(stream: Any, stored: bytes, most: int) -> bytes:
    made = bytearray()
    for at in range(0, len(stored), _BROTLI_STEP):
        made += stream.process(stored[at : at + _BROTLI_STEP])
        if len(made) >= most:
            return bytes(made)
    if not stream.is_finished():
        raise ArchiveError("brotli: cut off")
    return bytes(made)


def _unzstded(decompressor: Any, stored: bytes, most: int) -> bytes:
    """Of all frames, one behind the other."""
    made, end = bytearray(), 0
    for _ in range(bounds.MEMBERS):
        frame, end = _frame(decompressor.decompressobj(), stored, end, most - len(made))
        made += frame
        if end == len(stored) or len(made) >= most:
            return bytes(made)
    raise ArchiveError(f"zstd: more than {bounds.MEMBERS:,} frames")


def _frame(stream: Any, stored: bytes, at: int, most: int) -> Tuple[bytearray, int]:
    """What the frame of zstd that begins somewhere has at most, and where the next begins."""
    made = bytearray()
    while not stream.eof and len(made) < most:
        piece = stored[at : at + _ZSTD_STEP]
        if not piece:
            raise ArchiveError("zstd: cut off")
        made += stream.decompress(piece)
        at += len(piece)
    return made, at - len(stream.unused_data)


def _check_compression(what: str, code: int) -> None:
    if code not in _COMPRESSIONS:
        raise ArchiveError(f"the compression of its {what} is {code}; 1 (none) to 4 (zstd) are known")
    if code in _MODULES:
        name, package = _MODULES[code]
        try:
            module: Any = importlib.import_module(name)
            if code == ZSTD:
                module.ZstdDecompressor().decompressobj().eof  # which an older one doesn't tell
        except (ImportError, AttributeError) as why:
            raise ArchiveError(
                f"its {what} are compressed by {_COMPRESSIONS[code]}, which wants the module {name} ({package})"
            ) from why


def _count(content: bytes) -> Tuple[int, int]:
    """The number at the front, and where it ends."""
    end = _behind(content, 0, 1)
    if end < 0:
        raise ArchiveError("it ends early, in the number of its entries")
    [count] = _numbers(content[:end])
    if count > len(content):
        raise ArchiveError(f"it ends early: {count:,} entries don't fit in {len(content):,} bytes")
    return count, end


def _behind(content: bytes, at: int, count: int) -> int:
    """Where so many varints end, or -1 where they don't."""
    while count:
        piece = content[at : at + count]
        if not piece:
            return -1
        count -= len(piece.translate(None, _EARLIER_BYTES))
        at += len(piece)
    return at


def _numbers(column: bytes) -> Iterator[int]:
    """The varints of a column. Most are of one byte."""
    return iter(column) if column.isascii() else _long_numbers(column)


def _long_numbers(column: bytes) -> Iterator[int]:
    value = shift = 0
    for byte in column:
        value |= (byte & 127) << shift
        if byte < 128:
            if value >= _ENDLESS:
                raise ArchiveError("a number has more than 64 bits")
            yield value
            value = shift = 0
        else:
            shift += 7
            if shift > 63:
                raise ArchiveError("a number has more than 64 bits")
