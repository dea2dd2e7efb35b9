"""Where a fault is among the points that a broken feature's integers draw."""

from typing import List, Optional, Tuple

from libmvt import Path

Point = Tuple[int, int]


def position(drawn: List[Path], index: int) -> Optional[Tuple[Path, int]]:
    """The path and the point in it that stand at an integer, or the last before it."""
    found = None
    for path in drawn:
        for number, behind in enumerate(path.behind):
            if behind > index + 2 and found is not None:
                return found
            found = path, number
    return found
