"""What viewers stumble over in tiles that keep every rule: for each kind of finding what happens, and a tile that has it."""

from html import escape
from typing import Dict, List

import libmvt

from ... import bounds
from ...stores import Store
from ...stores.unpacking import unpacked
from ..findings import Kind, kinds
from ..links import leads_out
from ..results import Results
from .pieces import Zooms, command, heading
from .sentences import counted

_SAID = """These tiles keep every rule of the standard: they are accepted, and not counted as broken. <code>mvt lint</code>
 says the same of a tile. Each kind has a tile of the lowest zoom as its example."""


def stumbles(results: Results, stores: Dict[str, Store]) -> List[str]:
    """A part of the page for each kind; nothing where there is none."""
    found = kinds(results.database)
    if not found:
        return []
    parts = ['<h2 id="findings">What viewers stumble over</h2>', f'<p class="quiet">{_SAID}</p>']
    for kind in found:
        parts.append(f'<h3 id="finding-{escape(kind.name)}">{escape(kind.name)}: {counted(kind.tiles, "tile")}</h3>')
        parts.append(f"<p>{escape(libmvt.Finding(kind.name, kind.layer).explanation)}</p>")
        parts.append(f'<p class="quiet">{_zooms(dict(kind.zooms))}.</p>')
        parts.append(_example(kind, stores))
    return parts


def _zooms(tiles: Zooms) -> str:
    """`Zoom 4: 3 tiles, zoom 5: 1 tile`."""
    told = ", ".join(
        f"{'no zoom' if z is None else f'zoom {z}'}: {counted(count, 'tile')}" for z, count in tiles.items()
    )
    return told[0].upper() + told[1:]


def _example(kind: Kind, stores: Dict[str, Store]) -> str:
    store = stores[kind.store]
    head = heading(kind.store, kind.address, _within(kind, store), stores, store.link(kind.address))
    return f"<article>{head}{command(kind.address, store)}<p><code>{escape(kind.lint)}</code></p></article>"


def _within(kind: Kind, store: Store) -> str:
    """The layer's name and the feature's id; nothing where the tile can't be read any more, or has changed since."""
    index, within = kind.layer, kind.feature
    try:
        if leads_out(store, kind.address):
            return ""
        rows = libmvt.rows(unpacked(store.tile(kind.address)), bounds.PICTURE_ROWS)
        layer = rows.layers[index]
        feature = None if within is None else rows.features[layer.features.start + within]
        name = rows.text(layer.name)
    except Exception:  # by a store of another package too
        return ""
    told = f", layer {index} “{bounds.cut(name)}”"
    if feature is None:
        return told
    return f"{told}, feature {within}" + (f" (id {feature.id})" if feature.has_id else "")
