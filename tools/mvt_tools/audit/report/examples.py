"""The worst tiles of each cause: those at the lowest zooms, which most people see, and the largest of them."""

from typing import Any, Dict, Iterator, List, NamedTuple, Optional

import libmvt

from ...stores import Address, Store
from ...stores.unpacking import LIMIT, NotUnpacked, unpacked
from ..judging import REFUSED, Row
from ..links import leads_out
from ..results import Results

SHOWN, LOOKED_AT = 3, 60


class Example(NamedTuple):
    """A row of the table, its store, and its bytes: as they were judged, or as they are stored where they don't unpack;
    None, and why, where they can't be read any more. The link is where a browser finds it."""

    store: str
    row: Row
    content: Optional[bytes]
    why: str = ""
    link: Optional[str] = None

    def fault(self) -> Optional[libmvt.Refused]:
        """The fault of a refused tile; None where its bytes are gone, or were mended since."""
        if self.row.verdict != REFUSED or self.content is None:
            return None
        try:
            libmvt.judge(self.content)
        except libmvt.Refused as fault:
            return fault
        return None


def examples(results: Results, stores: Dict[str, Store], verdict: str, cause: Optional[int]) -> Iterator[Example]:
    """The worst of a kind, of different layers where there are such, one at a time: each may be large."""
    query = (
        f"select store, {', '.join(Row._fields)} from tiles where verdict = ? and verdict <> 'accepted' and cause is ?"
        " order by z is null, z, bytes desc limit ?"
    )
    found = results.database.execute(query, (verdict, cause, LOOKED_AT)).fetchall()
    first = _first_of_layers(found)
    chosen = (first + [row for row in found if row not in first])[:SHOWN]
    for row in chosen:
        yield _example(stores, row[0], Row(*row[1:]))


def _first_of_layers(rows: List[Any]) -> List[Any]:
    seen: Dict[Any, Any] = {}
    for row in rows:
        seen.setdefault(Row(*row[1:]).layer_name, row)
    return list(seen.values())


def _example(stores: Dict[str, Store], store: str, row: Row) -> Example:
    address = Address(row.z, row.x, row.y, row.name)
    link = stores[store].link(address)
    try:
        if leads_out(stores[store], address):
            return Example(store, row, None, "a link that leads out of the store; its bytes aren't shown", link)
        stored = stores[store].tile(address)
    except Exception as why:  # by a store of another package too
        return Example(store, row, None, getattr(why, "strerror", None) or str(why) or type(why).__name__, link)
    try:
        tile = unpacked(stored)
    except NotUnpacked:
        tile = stored
    return Example(store, row, tile[: LIMIT + 1], link=link)
