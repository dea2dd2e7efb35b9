"""Faults in words, and the bytes round their places."""

from typing import List, NamedTuple, Tuple


def counted(number: int, noun: str) -> str:
    """`1 tile`, `7 tiles`."""
    return f"{number:,} {noun}{'' if number == 1 else 's'}"


def marked(start: int, end: int) -> str:
    """Which bytes are marked."""
    if start == end:
        return f"The place is before byte {start:,}."
    return f"Marked: bytes {start:,} to {end - 1:,}." if end - start > 1 else f"Marked: byte {start:,}."


class Run(NamedTuple):
    """A row of bytes: where it begins, its bytes, and which of them are marked, from and to."""

    start: int
    content: bytes
    mark: Tuple[int, int]


def hex_rows(tile: bytes, start: int, end: int, width: int = 8, before: int = 3, after: int = 7) -> List[Run]:
    """The bytes round a place, in rows."""
    first = max(0, start // width - before) * width
    found = []
    for at in range(first, min(len(tile), first + (before + 1 + after) * width), width):
        content = tile[at : at + width]
        mark = min(max(start - at, 0), len(content)), min(max(end - at, 0), len(content))
        found.append(Run(at, content, mark))
    return found
