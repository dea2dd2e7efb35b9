"""Pieces of the page as HTML: tables of counts, and how a tile is named and opened."""

import shlex
from html import escape
from pathlib import Path
from typing import Dict, Iterable, Optional, Tuple, Union

from ...stores import Address, Store
from ..judging import Row

# Of long tables the rest is counted.
LONGEST = 40

# A row of a table: what is counted, as HTML, and how many there are.
Line = Tuple[str, int]
# How many tiles there are of each zoom.
Zooms = Dict[Optional[int], int]


def table(title: str, head: str, lines: Iterable[Line], whole: int, calm: Tuple[str, ...] = ()) -> str:
    """A table of counts, each with its share of a whole as a bar."""
    held = list(lines)
    if not held:
        return ""
    rows = [_row(name, f"{tiles:,}", 100 * tiles / max(whole, 1), name in calm) for name, tiles in held[:LONGEST]]
    more = f'<p class="quiet">and {len(held) - LONGEST:,} more, in audit.sqlite</p>' if len(held) > LONGEST else ""
    return f"<section><h2>{title}</h2>{_table(head, 'Tiles', rows)}{more}</section>"


def zooms(title: str, head: str, some: Zooms, total: Zooms, is_calm: bool = False) -> str:
    """Of each zoom how many tiles are of a kind, and of how many."""
    rows = []
    for z in sorted(total, key=lambda z: (z is None, z)):
        tiles = some.get(z, 0)
        rows.append(
            _row("unknown" if z is None else str(z), f"{tiles:,} of {total[z]:,}", 100 * tiles / total[z], is_calm)
        )
    return f"<section><h2>{title}</h2>{_table('Zoom', head, rows)}</section>"


def weighed(title: str, head: str, lines: Iterable[Line], whole: int) -> str:
    """A table of bytes, each with its share of a whole as a bar."""
    held = list(lines)
    if not held:
        return ""
    rows = [_row(name, size(bytes), 100 * bytes / max(whole, 1), True) for name, bytes in held[:LONGEST]]
    more = f'<p class="quiet">and {len(held) - LONGEST:,} more, in audit.sqlite</p>' if len(held) > LONGEST else ""
    return f"<section><h2>{title}</h2>{_table(head, 'Bytes', rows)}{more}</section>"


def size(bytes: int) -> str:
    """`340`, `12 kB`, `1.3 MB`: of 1,000 bytes, as shops and networks count."""
    for unit, of in (("GB", 10**9), ("MB", 10**6), ("kB", 10**3)):
        if bytes >= of:
            return f"{bytes / of:,.0f} {unit}" if bytes >= 10 * of else f"{bytes / of:.1f} {unit}"
    return f"{bytes:,}"


def _table(head: str, counted: str, rows: Iterable[str]) -> str:
    return (
        f'<table><thead><tr><th>{head}</th><th class="number">{counted}</th>'
        f'<th class="number">Share</th><th></th></tr></thead><tbody>{"".join(rows)}</tbody></table>'
    )


def _row(name: str, tiles: str, share: float, is_calm: bool) -> str:
    bar = f'<span style="width:{share:.1f}%"></span>' if share else ""
    return (
        f'<tr><th scope="row">{name}</th><td class="number">{tiles}</td><td class="number">{_share(share)}</td>'
        f'<td class="{"bar calm" if is_calm else "bar"}">{bar}</td></tr>'
    )


def _share(percent: float) -> str:
    return "0 %" if percent == 0 else "below 0.1 %" if percent < 0.1 else f"{percent:.1f} %"


def heading(store: str, tile: Union[Row, Address], within: str, stores: Dict[str, Store], link: Optional[str]) -> str:
    """Where a tile is, and which of its parts is spoken of."""
    where = tile.name if tile.z is None else f"{tile.z}/{tile.x}/{tile.y}"
    title = escape(f"{Path(store).name}: {where}" if len(stores) > 1 else str(where))
    if link is not None:
        title = f'<a href="{escape(link)}">{title}</a>'
    return f"<h4>{title}{escape(within)}</h4>"


def command(tile: Union[Row, Address], store: Store) -> str:
    """The command that opens a tile; nothing for one without a place. A link can't be: the page's address is secret."""
    if tile.z is None:
        return ""
    words = shlex.join(["mvt-page", store.path, f"{tile.z}/{tile.x}/{tile.y}", *store.options()])
    return f'<p class="quiet">To look into it: <code>{escape(words)}</code></p>'
