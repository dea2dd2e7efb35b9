"""What the page shows of a tile that is mended: the changes, and features before and after."""

from collections import Counter
from contextlib import suppress
from typing import Any, Dict, Iterator, List, Sequence, Tuple

import libmvt
from libmvt import CHANGES
from libmvt.raw import CHANGE_ROW, change_of, mend_rows

from .. import bounds
from .around import whole_shape

# So many changes are told, and so many features are drawn.
_TOLD, _DRAWN = 200, 6


def told(tile: bytes) -> Tuple[bytes, Dict[str, Any]]:
    """The mended tile, and the changes: how many there are of each kind, the lines of the first, and the first features.
    Raises Refused and TooLarge."""
    made, rows = mend_rows(tile)
    first = list(map(change_of, CHANGE_ROW.iter_unpack(rows[: _TOLD * CHANGE_ROW.size])))
    counts = Counter(CHANGES[kind] for kind, *_ in CHANGE_ROW.iter_unpack(rows))
    features: List[Dict[str, Any]] = []
    with suppress(MemoryError):
        features.extend(_features(tile, made, first) if len(tile) <= bounds.AROUND else ())
    return made, {
        "kinds": [{"kind": kind, "count": count} for kind, count in counts.items()],
        "lines": list(map(str, first)),
        "features": features,
    }


def _features(tile: bytes, made: bytes, changes: Sequence[libmvt.Change]) -> Iterator[Dict[str, Any]]:
    """The shapes of the first features that were changed, before and after; None for one that isn't drawn."""
    layer, left_out = -1, 0  # how many features of the layer are left out so far
    changed = {(each.layer, each.feature): each.kind for each in changes}
    for place, kind in list(changed.items())[:_DRAWN]:
        if place[0] != layer:
            layer, left_out = place[0], 0
        is_gone = kind == "FeatureLeftOut"
        after = None if is_gone else whole_shape(made, layer, place[1] - left_out)
        yield {"layer": layer, "feature": place[1], "before": whole_shape(tile, *place), "after": after}
        left_out += is_gone
