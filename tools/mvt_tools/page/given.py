"""What the command was given: stores, and files of one tile each."""

import os
from typing import Any, Dict, List, NamedTuple, Optional, Sequence

from libmvt import FINDINGS, NOTES, finding_text, note_text

from .._shown import shown
from ..stores import Key, Options, Store, StoreError, files, found, place_of

# What each kind of note and of finding means.
_MEANINGS = {
    "notes": {name: note_text(number) for number, name in NOTES.items()},
    "findings": {name: finding_text(number) for number, name in FINDINGS.items()},
}

# Of a folder so many archives are stores.
_ARCHIVES, _MOST_ARCHIVES = (".mbtiles", ".pmtiles"), 100
# A reason has so many letters at most.
_REASON = 300


class GivenError(Exception):
    """Why something that was given can't be read, in a sentence."""


class Place(NamedTuple):
    """A tile of a store, which is opened first."""

    store: int
    z: int
    x: int
    y: int


class Given:
    """The files and stores, in order; and the tile of a store that is opened first, or None."""

    def __init__(self, words: Sequence[str], options: Options = Options()) -> None:
        """Words are files, stores, and behind a store perhaps the place Z/X/Y of a tile; options are those of servers.
        Raises GivenError where a word names nothing that can be read."""
        self.files: List[str] = []
        self.stores: List[Store] = []
        self.place: Optional[Place] = None
        is_behind_store = False
        for word in words:
            place = place_of(word.split("/")) if is_behind_store else None
            if place is not None:
                self.place = Place(len(self.stores) - 1, *place)
                self._key(self.place)
            held = [] if place else _stores_in(word, options)
            store = None if place or held else _store(word, options)
            self.stores += held
            if store is not None:
                self.stores.append(store)
            elif place is None and not held:
                self.files.append(_readable(word))
            is_behind_store = store is not None

    def _key(self, place: Place) -> Key:
        store = self.stores[place.store]
        try:
            key = store.find(*place[1:])
        except (OSError, StoreError) as why:
            raise GivenError(_line(why)) from why
        if key is None:
            raise GivenError(f"{shown(store.path)}: it has no tile {place.z}/{place.x}/{place.y}")
        return key

    def told(self) -> Dict[str, Any]:
        """The names, for the page, what it opens first, and what notes and findings mean."""
        stores = [{"name": _base(store.path), "kind": store.kind, "size": _size(store.path)} for store in self.stores]
        place = None if self.place is None else {"store": self.place.store, "place": "/".join(map(str, self.place[1:]))}
        return {"files": [_base(path) for path in self.files], "stores": stores, "first": place, "meanings": _MEANINGS}

    def file(self, number: int) -> bytes:
        """The bytes of a file, and no more of them than decide. Raises IndexError and OSError."""
        return files.read(self.files[number])


def _line(why: Exception) -> str:
    """Why a store can't be read, for a terminal: its path, and the reason, in which words of the store may stand."""
    path, colon, reason = str(why).partition(": ")
    return f"{shown(path)}{colon}{shown(reason, _REASON)}"


def _base(path: str) -> str:
    """The name of a file, or the whole address of a server, as a text that any encoding takes."""
    name = path if "://" in path else os.path.basename(path) or path
    return name.encode("utf-8", "surrogateescape").decode("utf-8", "backslashreplace")


def _store(path: str, options: Options) -> Optional[Store]:
    try:
        store = found(path, options)
        if store is not None:
            store.check()
    except StoreError as why:
        raise GivenError(_line(why)) from why
    return store


def _stores_in(path: str, options: Options) -> List[Store]:
    """The archives of a folder that isn't a store itself; what can't be read of them is left out."""
    if not os.path.isdir(path):
        return []
    names = sorted(name for name in os.listdir(path) if name.endswith(_ARCHIVES))
    if not names or any(name.isdecimal() for name in os.listdir(path)):
        return []
    held = []
    for name in names[:_MOST_ARCHIVES]:
        try:
            held.append(_store(os.path.join(path, name), options))
        except GivenError:
            pass
    return [store for store in held if store is not None]


def _size(path: str) -> Optional[int]:
    """The size of a store that is one file."""
    return os.path.getsize(path) if os.path.isfile(path) else None


def _readable(path: str) -> str:
    try:
        files.opened(path).close()
    except OSError as why:
        raise GivenError(f"{shown(path)}: {why.strerror}") from why
    return os.path.abspath(path)
