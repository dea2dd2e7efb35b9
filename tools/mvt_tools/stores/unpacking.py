"""Tiles out of their compression, by Python's own zlib and never past the codec's limit."""

import re
import zlib
from typing import List, Tuple

from libmvt import LIMIT as LIMIT
from libmvt import Refused, judge

from ..bounds import MEMBERS

GZIP = b"\x1f\x8b"
_WINDOW_OF_EITHER = 47
# Tiles seldom unpack to more than so many times their bytes, and room that isn't used costs time.
_USUAL = 8

_PIECE = 1 << 16
_PADDING = re.compile(rb"\0*")


class NotUnpacked(Exception):
    """Compressed bytes that don't unpack, and why."""


def is_zlib(stored: bytes) -> bool:
    """Whether bytes begin as zlib's do. The first byte is also the tag of an unknown field, so a tile may too."""
    return len(stored) > 1 and stored[0] == 0x78 and (stored[0] << 8 | stored[1]) % 31 == 0


def is_packed(stored: bytes) -> bool:
    return stored[:2] == GZIP or is_zlib(stored)


def unpacked(stored: bytes) -> bytes:
    """The bytes of a tile. At most one byte beyond the limit is made, which tells that there are more."""
    if not is_packed(stored):
        return stored
    stream = zlib.decompressobj(_WINDOW_OF_EITHER)
    try:
        tile = stream.decompress(stored, min(LIMIT, _USUAL * len(stored)))
    except zlib.error as why:
        raise NotUnpacked(_reason(why)) from why
    return tile if stream.eof and not stream.unused_data else _unusual(stored)


def tile_in(stored: bytes) -> bytes:
    """The same, but what only looks like zlib and is a tile stays as it is."""
    try:
        return unpacked(stored)
    except NotUnpacked:
        if not (is_zlib(stored) and _is_tile(stored)):
            raise
        return stored


def _is_tile(content: bytes) -> bool:
    try:
        judge(content)
    except Refused:
        return False
    return True


def _unusual(stored: bytes) -> bytes:
    """The same, of what is several members, or broken, or larger than usual."""
    pieces: List[bytes] = []
    end = made = 0
    for _ in range(MEMBERS):
        member, end = _member(stored, end, LIMIT + 1 - made)
        pieces += member
        made += sum(map(len, member))
        if end == len(stored) or made > LIMIT:
            return b"".join(pieces)
    raise NotUnpacked(f"more than {MEMBERS:,} members of gzip")


def _member(stored: bytes, begin: int, most: int) -> Tuple[List[bytes], int]:
    """What the member of a gzip that begins somewhere, or the whole of a zlib, has at most; and where the next begins."""
    stream, view = zlib.decompressobj(_WINDOW_OF_EITHER), memoryview(stored)
    made, count, fed = [], 0, begin
    while not stream.eof and count < most:
        # What a call leaves over it copies, so it gets little.
        given = stream.unconsumed_tail or view[fed : fed + _PIECE]
        if not given:
            raise NotUnpacked("cut off")
        fed += 0 if stream.unconsumed_tail else len(given)
        try:
            made.append(stream.decompress(given, most - count))
        except zlib.error as why:
            raise NotUnpacked(_reason(why)) from why
        count += len(made[-1])
    end = _PADDING.match(stored, fed - len(stream.unused_data)).end()  # type: ignore[union-attr]
    if end < len(stored) and count < most and not stored.startswith(GZIP, end):
        raise NotUnpacked(f"{len(stored) - end} more bytes behind its end")
    return made, end


def _reason(error: zlib.error) -> str:
    """zlib's own words without its number: `Error -3 while decompressing data: incorrect data check`."""
    return str(error).rpartition(": ")[2] or str(error)
