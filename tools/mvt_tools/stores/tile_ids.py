"""Tile ids of PMTiles: zoom by zoom, and within a zoom along Hilbert's curve."""

from functools import lru_cache
from typing import List, Tuple

# Beyond it a coordinate has no room in 32 bits.
DEEPEST = 31

# How a square is turned. Each turn is its own inverse, and one behind the other is `^`.
_SAME, _SWAPPED, _ANTISWAPPED, _OVER = range(4)


def first_of(z: int) -> int:
    """The id of the first tile of a zoom."""
    return ((1 << 2 * z) - 1) // 3


def place_of(tile_id: int) -> Tuple[int, int, int]:
    """The zoom, the column and the row of a tile, counted from the north."""
    z = ((3 * tile_id + 1).bit_length() - 1) // 2
    along = tile_id - _FIRSTS[z]
    x, y = _STEPS[along & 255]
    column, row, turn = _block(z, along >> 8)
    if turn == _SWAPPED:
        x, y = y, x
    elif turn == _ANTISWAPPED:
        x, y = 15 - y, 15 - x
    elif turn == _OVER:
        x, y = 15 - x, 15 - y
    return z, column + x, row + y


# Of each zoom, and of the one behind the deepest.
_FIRSTS = [first_of(z) for z in range(DEEPEST + 2)]


def id_of(z: int, x: int, y: int) -> int:
    """The id of a tile."""
    along = 0
    for level in range(z - 1, -1, -1):
        side = 1 << level
        right, lower = (x >> level) & 1, (y >> level) & 1
        along += side * side * (3 * right ^ lower)
        x, y = x & (side - 1), y & (side - 1)
        if not lower:
            x, y = (side - 1 - y, side - 1 - x) if right else (y, x)
    return first_of(z) + along


@lru_cache(maxsize=64)
def _block(z: int, along: int) -> Tuple[int, int, int]:
    """The first column and row of a block of 16 by 16 tiles, and how it is turned."""
    column = row = 0
    turn, side = _SAME, 16
    for level in range(4, z + z % 2):
        right, lower = _digit(along & 3)
        along >>= 2
        if not lower:
            column, row = (side - 16 - row, side - 16 - column) if right else (row, column)
            turn ^= _ANTISWAPPED if right else _SWAPPED
        column, row, side = column + side * right, row + side * lower, 2 * side
    # The steps of a block are those of four levels. Each level above the zoom swaps the two.
    levels = max(4, z + z % 2)
    return (row, column, turn ^ _SWAPPED) if (levels - z) % 2 else (column, row, turn)


def _digit(digit: int) -> Tuple[int, int]:
    """The half to the right or not, and the lower half or not, of a quarter by its number along the curve."""
    return digit >> 1, (digit & 1) ^ (digit >> 1)


def _step(four_levels: int) -> Tuple[int, int]:
    """Where four levels lead in a block."""
    x = y = 0
    for level in range(4):
        side = 1 << level
        right, lower = _digit((four_levels >> 2 * level) & 3)
        if not lower:
            x, y = (side - 1 - y, side - 1 - x) if right else (y, x)
        x, y = x + side * right, y + side * lower
    return x, y


_STEPS: List[Tuple[int, int]] = [_step(four_levels) for four_levels in range(256)]
