"""A store's copy in which the tiles are mended that break one of two rules. Workers mend them."""

import gzip
import pickle
import zlib
from collections import Counter
from contextlib import AbstractContextManager, ExitStack, closing
from typing import Any, Callable, Dict, Iterable, Iterator, List, Optional, Tuple, Union

import libmvt
from libmvt import CAUSES, CHANGES
from libmvt.raw import CHANGE_ROW, mend_rows

from ..stores import Address, State, Store, StoreError
from ..stores.pmtiles import PMTiles
from ..stores.tile_ids import id_of
from ..stores.unpacking import GZIP, NotUnpacked, tile_in
from .copies import Copy, Tiles
from .engine import Finished, Task, Workers
from .judging import NOT_UNPACKED, REFUSED, UNREAD
from .progress import Progress
from .results import Added, Results

# The causes of what can be mended.
CURABLE = tuple(number for number, name in CAUSES.items() if name in ("ZeroSegment", "FirstRing"))

# A tile that was mended, and how many changes of each kind that took.
Mended = Tuple[bytes, Dict[str, int]]
# What starts workers.
Start = Callable[[], AbstractContextManager[Workers]]


def mended(content: bytes) -> Optional[Mended]:
    """A tile as it is stored, mended and in the same compression; None where it can't be mended, or needn't."""
    try:
        tile = tile_in(content)
        made, rows = mend_rows(tile)
    except (NotUnpacked, libmvt.Refused, libmvt.TooLarge, MemoryError):
        return None
    if not rows:
        return None
    if tile is not content:
        made = gzip.compress(made, mtime=0) if content.startswith(GZIP) else zlib.compress(made)
    return made, Counter(CHANGES[row[0]] for row in CHANGE_ROW.iter_unpack(rows))


def mended_part(_: Store, content: bytes) -> bytes:
    """The same, as a worker hands it over."""
    return pickle.dumps(mended(content))


class Menders:
    """Workers that mend tiles, which are started when there is one."""

    def __init__(self, store: Store, start: Start) -> None:
        self._store, self._start = store, start
        self._workers: Optional[Workers] = None
        self._held = ExitStack()
        self._handed = 0

    def close(self) -> None:
        self._held.close()

    def __call__(self, contents: Iterable[bytes]) -> Dict[bytes, Optional[Mended]]:
        """Each of some contents with what is made of it. One that workers end over stays as it is."""
        made: Dict[bytes, Optional[Mended]] = {}
        for content in contents:
            workers = self._workers = self._workers or self._held.enter_context(self._start())
            while workers.handed() >= workers.ahead:
                made.update(map(_taken, workers.finished()))
            self._handed += 1
            workers.hand(Task(self._store, self._handed, content))
        while self._workers is not None and self._workers.handed():
            made.update(map(_taken, self._workers.finished()))
        return made


def _taken(finished: Finished) -> Tuple[bytes, Optional[Mended]]:
    return finished.task.tiles, None if finished.content is None else pickle.loads(finished.content)


class Mending:
    """What stands in the place of the tiles of a copy, whose `told` says how many tiles were mended of each cause, and how
    many have changes of each kind, and how many changes."""

    def __init__(self, results: Results, store: Store, copy: Copy, menders: Menders) -> None:
        self._database, self._copy, self._menders = results.database, copy, menders
        self._has_ids = isinstance(store, PMTiles)
        for name in ("tiles", "kinds", "changes"):
            copy.told.setdefault(name, {})
        # The tiles that can be mended, those of a run as the first and the last of its ids.
        self._database.execute("drop table if exists temp.curable")
        self._database.execute("create temp table curable (first primary key, last, cause text) without rowid")
        self._database.execute("begin")
        self._database.executemany("insert or ignore into temp.curable values (?, ?, ?)", self._found(store))
        self._database.execute("commit")

    def _found(self, store: Store) -> Iterator[Tuple[Union[int, str], Union[int, str], str]]:
        query = (
            f"select z, x, y, name, tiles, cause_name from tiles where store = ? and verdict = ? and cause in {CURABLE}"
        )
        for *place, cause in self._database.execute(query, (store.path, REFUSED)):
            address = Address(*place)
            first = self._key(address)
            yield first, first if isinstance(first, str) else first + address.tiles - 1, cause

    def _key(self, address: Address) -> Union[int, str]:
        z, x, y = address[:3]
        if not self._has_ids or z is None or x is None or y is None:
            return str(address)
        return id_of(z, x, y)

    def _cause(self, address: Address) -> Optional[str]:
        """Why a tile is refused that can be mended; None for others."""
        query = "select last, cause from temp.curable where first <= ? order by first desc limit 1"
        key = self._key(address)
        found = self._database.execute(query, (key,)).fetchone()
        return found[1] if found is not None and found[0] >= key else None

    def __call__(self, tiles: Tiles) -> List[bytes]:
        causes = [self._cause(address) for address, _ in tiles]
        made = self._menders({content: None for (_, content), cause in zip(tiles, causes) if cause})
        contents = []
        for (address, content), cause in zip(tiles, causes):
            found = made.get(content) if cause else None
            contents.append(found[0] if found else content)
            if cause and found:
                self._count(address.tiles, cause, found[1])
        return contents

    def _count(self, tiles: int, cause: str, changes: Dict[str, int]) -> None:
        told = self._copy.told
        _add(told["tiles"], cause, tiles)
        for kind, count in changes.items():
            _add(told["kinds"], kind, tiles)
            _add(told["changes"], kind, tiles * count)

    def count(self) -> int:
        """How many tiles were mended."""
        return sum(self._copy.told["tiles"].values())


def _add(counts: Dict[str, int], name: str, count: int) -> None:
    counts[name] = counts.get(name, 0) + count


def mend(
    results: Results, store: Store, state: State, copy: Copy, start: Start, check: Callable[[], None]
) -> Dict[str, Any]:
    """Makes the copy of a store that was audited, and tells what was mended. Between two steps `check` may raise what ends
    it. Raises StoreError where the store has more tiles than it says."""
    with closing(Menders(store, start)) as menders:
        mending = Mending(results, store, copy, menders)
        done = mending.count()
        with closing(Progress(state.tiles, copy.told["copied"], done, "mended")) as progress:
            for tiles in copy.steps(mending):
                progress.add(Added(tiles, mending.count() - done))
                done = mending.count()
                check()
                if copy.told["copied"] > state.tiles:
                    raise StoreError(f"{store.path}: it has more tiles than the {state.tiles:,} that it says")
    copy.end()
    return copy.told


def still_broken(found: Dict[str, Any]) -> Dict[str, int]:
    """How many tiles of an audit are broken when some are mended, by cause or verdict."""
    tiles = found["mended"]["tiles"]
    causes = {each["cause_name"]: each["tiles"] - tiles.get(each["cause_name"], 0) for each in found["causes"]}
    others = {verdict: found["verdicts"][verdict] for verdict in (NOT_UNPACKED, UNREAD)}
    return {name: count for name, count in {**causes, **others}.items() if count}
