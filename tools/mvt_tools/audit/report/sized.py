"""What makes tiles large: the bytes of the accepted ones by layer and key, and the largest of each zoom."""

from html import escape
from typing import Any, Dict, Iterable, List, Optional

from ...stores import Address, Store
from ..results import Results
from ..sizes import LARGE, Layer, layers
from .pieces import command, heading, size, weighed
from .sentences import counted

_SAID = """Bytes of accepted tiles, unpacked, where a run of equal tiles counts once."""
# So many of the largest tiles are shown.
_SHOWN = 5


def sized(results: Results, stores: Dict[str, Store], found: Dict[str, Any]) -> List[str]:
    """A part of the page; nothing where no tile is accepted."""
    held = layers(results.database)
    whole = sum(layer.bytes for layer in held)
    if not whole:
        return []
    large = sum(each["large"] for each in found["sizes"]["zooms"])
    said = f" {counted(large, 'tile')} of more than {LARGE:,} bytes." if large else ""
    return [
        f'<h2 id="sizes">What makes tiles large</h2><p class="quiet">{_SAID}{said}</p>',
        f'<div class="columns">{"".join(_tables(held, whole, found["sizes"]))}</div>',
        "<h3>The largest tiles</h3>",
        *(_tile(each, stores) for each in found["sizes"]["largest"][:_SHOWN]),
    ]


def _tables(held: List[Layer], whole: int, found: Dict[str, Any]) -> Iterable[str]:
    geometry, attributes = sum(layer.geometry for layer in held), sum(layer.attributes for layer in held)
    parts = [("geometries", geometry), ("keys and values", attributes), ("the rest", whole - geometry - attributes)]
    keys = [(f"{_named(each['key'])}<br>{_quiet(each['layer'])}", each["bytes"]) for each in found["keys"]]
    zooms = [
        (f"{_zoom(each['z'])}<br>{_quiet(counted(each['tiles'], 'tile'))}", each["bytes"]) for each in found["zooms"]
    ]
    yield weighed("By part", "Part", parts, whole)
    yield weighed("By layer", "Layer", [(_layer(layer), layer.bytes) for layer in held], whole)
    yield weighed("By key", "Key, with its values", keys, whole)
    yield weighed("By zoom", "Zoom", zooms, sum(bytes for _, bytes in zooms))


def _layer(layer: Layer) -> str:
    told = f"{counted(layer.features, 'feature')}; {100 * layer.geometry / max(layer.bytes, 1):.0f} % geometries"
    return f"{_named(layer.layer)}<br>{_quiet(told)}"


def _named(name: Optional[str]) -> str:
    return "others" if name is None else escape(name) or "(without a name)"


def _zoom(z: Optional[int]) -> str:
    return "unknown" if z is None else str(z)


def _quiet(text: Optional[str]) -> str:
    return f'<span class="quiet">{escape(text or "")}</span>'


def _tile(each: Dict[str, Any], stores: Dict[str, Store]) -> str:
    address = Address(each["z"], each["x"], each["y"], each["name"])
    within = (
        f": {size(each['bytes'])}{' bytes' if each['bytes'] < 1000 else ''}, {counted(each['features'], 'feature')}"
    )
    store = stores[each["store"]]
    return f"<article>{heading(each['store'], address, within, stores, store.link(address))}{command(address, store)}</article>"
