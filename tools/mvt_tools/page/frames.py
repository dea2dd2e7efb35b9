"""Several parts in one body: their count, the length of each, and the parts. Numbers are little-endian, of 32 bits."""

import struct
from typing import List, Sequence, Union

Part = Union[bytes, bytearray, memoryview]


class FrameError(ValueError):
    """Bytes that aren't framed parts."""


def spelled(parts: Sequence[Sequence[Part]]) -> List[Part]:
    """The frames of parts, each in pieces, as pieces."""
    lengths = [sum(len(piece) for piece in pieces) for pieces in parts]
    head = struct.pack(f"<I{len(parts)}I", len(parts), *lengths)
    return [head, *(piece for pieces in parts for piece in pieces)]


def places(body: Part, least: int = 0) -> List[slice]:
    """Where the parts of a body lie. Raises FrameError where it is no such body, or has fewer parts."""
    if len(body) < 4:
        raise FrameError("it has no count of parts")
    (count,) = struct.unpack_from("<I", body)
    at = 4 + 4 * count
    if at > len(body):
        raise FrameError("it has no room for so many parts")
    if count < least:
        raise FrameError("a part is missing")
    found = []
    for length in struct.unpack_from(f"<{count}I", body, 4):
        found.append(slice(at, at + length))
        at += length
    if at != len(body):
        raise FrameError("the lengths aren't those of the parts")
    return found
