"""What strangers wrote (metadata, names, heads, words), read as numbers, objects, rows and pieces of files. What is none of
these is None, or a ValueError for what is no JSON: no number is too large for it, and no text too deep."""

import json
import math
import os
import re
from itertools import islice
from typing import Any, Iterable, List, Optional, Tuple, TypeVar

Item = TypeVar("Item")

# Whole numbers of 64 bits have 20 digits at most.
_WHOLE = re.compile("-?[0-9]{1,20}")
# A place in a file is a number of 63 bits.
_ENDLESS = 1 << 63

Degrees = Tuple[float, float, float, float]


def number(value: Any) -> Optional[float]:
    """A finite number, or the one that a text spells."""
    if isinstance(value, bool) or not isinstance(value, (int, float, str)):
        return None
    try:
        found = float(value)
    except (ValueError, OverflowError):
        return None
    return found if math.isfinite(found) else None


def whole(value: Any, low: int, high: int) -> Optional[int]:
    """A whole number from one up to and with another, or the one that a text spells in digits."""
    if isinstance(value, str) and _WHOLE.fullmatch(value) or isinstance(value, float) and value.is_integer():
        value = int(value)
    is_whole = isinstance(value, int) and not isinstance(value, bool)
    return value if is_whole and low <= value <= high else None


def spelled(digits: str) -> int:
    """The number of at most 20 digits. Raises ValueError for any other text."""
    found = whole(digits, 0, 10**20)
    if found is None:
        raise ValueError("no number of at most 20 digits")
    return found


def degrees(given: Any) -> Optional[Degrees]:
    """Bounds (west, south, east, north), which are four numbers in a list, or in a text with commas between them."""
    if isinstance(given, str):
        given = given.split(",", 4)
    elif not isinstance(given, list) or any(isinstance(part, str) for part in given):
        return None
    found = [each for each in map(number, given[:5]) if each is not None]
    if len(found) != 4 or len(given) != 4:
        return None
    west, south, east, north = found
    return west, south, east, north


def parsed(text: Any) -> Any:
    """What a text of JSON, or its bytes, say. Raises ValueError."""
    try:
        return json.loads(text)
    except RecursionError as why:
        raise ValueError("its brackets are nested too deeply") from why


def some(rows: Iterable[Item], most: int) -> List[Item]:
    """The first rows of a question, at most so many."""
    return list(islice(rows, most))


def piece(file: int, offset: int, length: int) -> bytes:
    """What an open file has from a place on, at most so many bytes. Raises OSError."""
    return os.pread(file, length, offset) if 0 <= offset < _ENDLESS - length and length >= 0 else b""
