"""A store's description of itself (its zooms, bounds and vector_layers) against the tiles that it has."""

import math
from typing import Any, Dict, Iterator, List, NamedTuple, Optional, Set, Tuple

from libmvt.mercator import EDGE, column_of, row_of

from .. import bounds, foreign
from .._shown import shown
from ..stores import MOST_ZOOM, Store, StoreError
from .links import is_out
from .metadata import FILE, UNREADABLE
from .results import Results

# Of long lists the rest is counted.
_SHOWN = 6
# No zoom is larger.
_MOST_ZOOM = 255


class Description(NamedTuple):
    """What a store says: its first and last zoom, its bounds (west, south, east, north), and of each layer the keys, if it
    names any."""

    zooms: Optional[Tuple[int, int]]
    bounds: Optional[foreign.Degrees]
    layers: Optional[Dict[str, Set[str]]]


def differences(results: Results, store: Store) -> List[str]:
    """What is other than the store says, in sentences; nothing where it says nothing."""
    try:
        if store.kind == "folder" and is_out(store.path, FILE):
            raise StoreError(f"{FILE} is a link that leads out of the store")
        found = description(store.metadata())
    except UNREADABLE as why:
        return [f"its description can't be read: {shown(str(why) or 'out of memory')}"]
    return [
        *_of_zooms(results, store.path, found),
        *_of_bounds(results, store.path, found),
        *_of_layers(results, store.path, found),
    ]


def description(said: Dict[str, Any]) -> Description:
    """As MBTiles, PMTiles and TileJSON have it. Raises ValueError for a member of another form."""
    layers = said.get("vector_layers")
    if layers is None and "json" in said:
        held = foreign.parsed(said["json"]) if isinstance(said["json"], str) else None
        layers = held.get("vector_layers") if isinstance(held, dict) else None
    return Description(_zooms(said), _bounds(said.get("bounds")), None if layers is None else _layers(layers))


def _zooms(said: Dict[str, Any]) -> Optional[Tuple[int, int]]:
    if said.get("minzoom") is None or said.get("maxzoom") is None:
        return None
    first, last = (foreign.whole(said[name], 0, _MOST_ZOOM) for name in ("minzoom", "maxzoom"))
    if first is None or last is None:
        raise ValueError("minzoom and maxzoom are no zooms")
    return first, last


def _bounds(given: Any) -> Optional[foreign.Degrees]:
    if given is None:
        return None
    found = foreign.degrees(given)
    if found is None or any(abs(each) > bounds.DEGREES for each in found):
        raise ValueError("bounds are no four numbers of degrees")
    return found


def _layers(given: Any) -> Dict[str, Set[str]]:
    """By names that are cut as those of tiles are."""
    if not isinstance(given, list) or len(given) > bounds.LAYERS:
        raise ValueError("vector_layers is no list of layers")
    found = {}
    for each in given:
        if not isinstance(each, dict) or not isinstance(each.get("id"), str):
            raise ValueError("vector_layers has a layer without an id")
        fields = each.get("fields")
        found[bounds.cut(each["id"])] = set(map(bounds.cut, fields)) if isinstance(fields, dict) else set()
    return found


def _of_zooms(results: Results, path: str, found: Description) -> Iterator[str]:
    query = "select min(z), max(z) from counts where store = ? and z is not null and verdict <> 'unread'"
    first, last = results.database.execute(query, (path,)).fetchone()
    if found.zooms is None or first is None:
        return
    for name, said, is_ in (("minzoom", found.zooms[0], first), ("maxzoom", found.zooms[1], last)):
        if said != is_:
            yield f"{name} is {said}, and the {'first' if name == 'minzoom' else 'last'} zoom with tiles is {is_}"


def _of_bounds(results: Results, path: str, found: Description) -> Iterator[str]:
    """The first zoom with a tile that lies outside, by more than a tile for a margin."""
    if found.bounds is None:
        return
    west, south, east, north = found.bounds
    top, bottom = (row_of(min(max(latitude, -EDGE), EDGE)) for latitude in (north, south))
    left, right = column_of(west), column_of(east)
    query = "select z, left, right, top, bottom from extents where store = ? order by z"
    for z, first, last, upper, lower in results.database.execute(query, (path,)):
        side = 1 << min(z, MOST_ZOOM)
        is_wide = west <= east and (first < math.floor(left * side) - 1 or last > math.ceil(right * side))
        if is_wide or upper < math.floor(top * side) - 1 or lower > math.ceil(bottom * side):
            told = ", ".join(f"{each:g}" for each in found.bounds)
            yield f"bounds are {told}, and zoom {z} has tiles outside: columns {first} to {last}, rows {upper} to {lower}"
            return


def _of_layers(results: Results, path: str, found: Description) -> Iterator[str]:
    if found.layers is None:
        return
    query = (
        "select layer, sum(tiles) from layer_sizes where store = ? and layer is not null group by layer order by 2 desc"
    )
    there = dict(results.database.execute(query, (path,)))
    unnamed = [f"{_quoted(name)} in {tiles:,}" for name, tiles in there.items() if name not in found.layers]
    if unnamed:
        yield f"vector_layers lacks layers of accepted tiles: {_few(unnamed)}"
    absent = [_quoted(name) for name in found.layers if name not in there]
    if absent:
        yield f"vector_layers has layers that no accepted tile has: {_few(absent)}"
    keys = (
        "select layer, key from key_sizes where store = ? and layer is not null and key is not null order by layer, key"
    )
    named = results.database.execute(keys, (path,))
    unknown = [
        f"{_quoted(key)} of {_quoted(layer)}" for layer, key in named if key not in (found.layers.get(layer) or {key})
    ]
    if unknown:
        yield f"vector_layers lacks keys of accepted tiles: {_few(unknown)}"


def _quoted(name: str) -> str:
    return f"“{shown(name, 100)}”"


def _few(names: List[str]) -> str:
    return ", ".join(names[:_SHOWN]) + (f" and {len(names) - _SHOWN:,} more" if len(names) > _SHOWN else "")
