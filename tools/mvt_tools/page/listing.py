"""A store's tiles, some at a time, each with what is said of it. Nothing is kept between two questions."""

import json
import time
from contextlib import closing
from typing import Any, Dict, List, NamedTuple, Optional, Tuple

import libmvt

from .. import foreign
from ..audit.judging import ACCEPTED, BROKEN_VERDICTS, EMPTY, Judge, Said
from ..stores import Address, Content, Key, NotYet, Store
from ..stores.unpacking import NotUnpacked, unpacked
from ..stores.waiting import alive

# So long, in seconds, tiles are looked through for one answer: who asks may go on, or not.
SLICE = 1.0
MOST = 1000
# A key has at most so many letters.
_LONGEST = 1000


class Wish(NamedTuple):
    """Which tiles are wanted: from a key on, without that of the key itself where `is_behind`; so many at most; and
    only broken ones, or those that break one rule."""

    key: Optional[Key]
    is_behind: bool
    most: int
    only_broken: bool
    cause: Optional[int]


def key_of(told: str) -> Key:
    """A key as `told` spells it. Raises ValueError."""
    key = foreign.parsed(told) if len(told) <= _LONGEST else None
    if not isinstance(key, list) or not all(type(each) in (int, str) for each in key):
        raise ValueError("no key")
    return tuple(key)


def spelled(key: Key) -> str:
    """A key as a text, which `key_of` reads."""
    return json.dumps(key, default=str)


def some(store: Store, wish: Wish) -> Dict[str, Any]:
    """Some tiles, how many were looked at for them, and the key behind which to go on: None at the end."""
    tiles: List[Dict[str, Any]] = []
    last: Optional[Key] = None
    looked, looker, ends = 0, _Looker(wish), time.monotonic() + SLICE
    asked = store.after(wish.key) if wish.is_behind and wish.key is not None else store.since(wish.key)
    with closing(asked) as found:  # type: ignore[type-var]
        for key, address, content in found:
            if isinstance(content, NotYet):
                alive()
            else:
                last = key
                if content is not None:
                    looked += 1
                    tiles += looker.told(key, address, content)
            if last is not None and (len(tiles) == wish.most or time.monotonic() > ends):
                return {"tiles": tiles, "looked": looked, "next": spelled(last)}
    return {"tiles": tiles, "looked": looked, "next": None}


class Zoom(NamedTuple):
    """A zoom of a store, from a key on."""

    z: int
    key: Optional[Key]


def places(store: Store, wish: Zoom) -> Dict[str, Any]:
    """The places of a zoom's tiles, x and y and whether the tile is broken, for as long as one answer takes; and the key to go
    on from: None at the end."""
    tiles: List[Tuple[int, int, int]] = []
    judge, ends, first = Judge(), time.monotonic() + SLICE, store.first_key(wish.z)
    with closing(store.since(first if wish.key is None else wish.key)) as found:  # type: ignore[type-var]
        for key, address, content in found:
            if time.monotonic() > ends:
                return {"tiles": tiles, "next": spelled(key)}
            if isinstance(content, NotYet):
                alive()
                continue
            if first is not None and address.z is not None and address.z > wish.z:
                break
            if content is not None and address.z == wish.z and _is_in(address):
                tiles.append((address.x or 0, address.y or 0, judge(content).verdict in BROKEN_VERDICTS))
    return {"tiles": tiles, "next": None}


def _is_in(address: Address) -> bool:
    """Whether its zoom has the place."""
    z, x, y = address.z or 0, address.x or 0, address.y or 0
    return min(x, y) >= 0 and not (x >> z or y >> z)


class _Looker:
    """Looks at one tile after the other. Most are good, and of these nothing is made where broken ones are wanted."""

    def __init__(self, wish: Wish) -> None:
        self._wish, self._judge = wish, Judge()
        self._passed: Content = None

    def told(self, key: Key, address: Address, content: Content) -> List[Dict[str, Any]]:
        """What is told of a tile that is wanted; nothing of another."""
        if content is self._passed:
            return []
        said = None if self._is_other(content) else self._judge(content)
        if said is None or (self._wish.only_broken and not self._is_wanted(said)):
            self._passed = content
            return []
        size = len(content) if isinstance(content, bytes) else None
        noted = [{"kind": kind, "count": count} for kind, count in said.noted]
        return [{"key": spelled(key), "size": size, **said.at(address)._asdict(), "noted": noted}]

    def _is_wanted(self, said: Said) -> bool:
        return said.verdict not in (ACCEPTED, EMPTY) and self._wish.cause in (None, said.cause)

    def _is_other(self, content: Content) -> bool:
        """Whether broken tiles are wanted, and this one is good or breaks another rule than the one that is wanted."""
        if not self._wish.only_broken or not isinstance(content, bytes):
            return False
        try:
            libmvt.judge(unpacked(content))
        except libmvt.Refused as fault:
            return self._wish.cause not in (None, fault.cause)
        except (NotUnpacked, MemoryError):
            return False  # which the row tells
        return True
