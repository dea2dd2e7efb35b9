"""A folder of files {z}/{x}/{y}.mvt or .pbf, each with or without .gz."""

import hashlib
import os
import re
from typing import Any, Dict, Iterator, List, Optional, Tuple

from .. import foreign
from ..bounds import SAID
from . import Address, Content, Key, Options, State, Store, StoreError, files

ENDINGS = (".mvt", ".pbf", ".mvt.gz", ".pbf.gz")
_ENTRY = re.compile(r"(0|[1-9][0-9]{0,9})(\.(?:mvt|pbf)(?:\.gz)?)")
# Zooms have two digits at most. Other scripts have digits too, which name no tile.
_ZOOM, _COLUMN = re.compile("0|[1-9][0-9]?"), re.compile("0|[1-9][0-9]{0,9}")


def opened(path: str, options: Options = Options()) -> Optional["Tree"]:
    return Tree(path) if os.path.isdir(path) else None


class Tree(Store):
    kind = "folder"

    def __init__(self, path: str) -> None:
        self.path = os.path.abspath(path)

    def check(self) -> None:
        if next(self._names(), None) is None:
            raise StoreError(f"{self.path}: no tiles {{z}}/{{x}}/{{y}}.mvt or .pbf in this folder")

    def state(self) -> State:
        digest, tiles = hashlib.sha256(), 0
        for name in self._names():
            digest.update(files.told(os.path.join(self.path, name), name))
            tiles += 1
        if not tiles:
            raise StoreError(f"{self.path}: no tiles {{z}}/{{x}}/{{y}}.mvt or .pbf in this folder")
        return State(tiles, digest.hexdigest())

    def ranges(self, size: int) -> Iterator[List[str]]:
        return files.batches(self._names(), size)

    def tiles(self, part: List[str]) -> Iterator[Tuple[Address, Content]]:
        return files.tiles_of(self.path, part)

    def tile(self, address: Address) -> bytes:
        return files.read(os.path.join(self.path, str(address)))

    def metadata(self) -> Dict[str, Any]:
        """As GDAL and tippecanoe write it into a folder."""
        path = os.path.join(self.path, "metadata.json")
        if not os.path.isfile(path):
            return {}
        content = files.front(path, SAID + 1)
        said = foreign.parsed(content) if len(content) <= SAID else None
        if not isinstance(said, dict):
            raise ValueError("metadata.json is no object of JSON, or too large")
        return said

    # A key is z, x, y and which of the endings; or z, or z and x, of a folder that can't be listed.

    def since(self, key: Optional[Key]) -> Iterator[Tuple[Key, Address, Content]]:
        for place in self._places(() if key is None else _checked(key)):
            [(address, content)] = files.tiles_of(self.path, [_name(place)])
            yield place, address, content

    def first_key(self, z: int) -> Optional[Key]:
        return (z,)

    def find(self, z: int, x: int, y: int) -> Optional[Key]:
        places = [(z, x, y, ending) for ending in range(len(ENDINGS))]
        return next((place for place in places if os.path.isfile(os.path.join(self.path, _name(place)))), None)

    def held(self, key: Key) -> bytes:
        return files.read(os.path.join(self.path, _name(_checked(key))))

    def _names(self) -> Iterator[str]:
        return map(_name, self._places(()))

    def _places(self, first: Key) -> Iterator[Key]:
        """The keys from one on, in order. A folder that can't be listed stands before those that it would have."""
        for z in self._numbers((), _ZOOM):
            if (z,) < first[:1]:
                continue
            try:
                columns = self._numbers((z,), _COLUMN)
            except OSError:
                yield from _from(first, [(z,)])
                continue
            for x in columns:
                if (z, x) >= first[:2]:
                    yield from _from(first, self._column(z, x))

    def _column(self, z: int, x: int) -> List[Key]:
        """The keys of a column's tiles, in order."""
        try:
            entries = filter(None, map(_ENTRY.fullmatch, self._listed((z, x))))
        except OSError:
            return [(z, x)]
        return sorted((z, x, foreign.spelled(entry[1]), ENDINGS.index(entry[2])) for entry in entries)

    def _numbers(self, folder: Key, pattern: "re.Pattern[str]") -> List[int]:
        """The folders of a folder, in order."""
        return sorted(map(foreign.spelled, filter(pattern.fullmatch, self._listed(folder))))

    def _listed(self, folder: Key) -> List[str]:
        """What a folder has; nothing where it is none. Raises OSError, and StoreError for the store's own folder."""
        path = os.path.join(self.path, _name(folder))
        try:
            return os.listdir(path)
        except NotADirectoryError:
            return []
        except OSError as why:
            if folder:
                raise
            raise StoreError(f"{path}: {why.strerror}") from why


def _from(first: Key, places: List[Key]) -> Iterator[Key]:
    return (place for place in places if place >= first)


def _checked(key: Key) -> Key:
    """A key of a folder, which is numbers: no path is made of anything else."""
    if len(key) not in (1, 2, 4) or not all(isinstance(each, int) for each in key):
        raise ValueError("a key is one, two or four numbers")
    if min(key) < 0 or key[3:] >= (len(ENDINGS),):
        raise ValueError("a number is out of range")
    return key


def _name(key: Key) -> str:
    name = "/".join(map(str, key[:3]))
    return name + ENDINGS[key[3]] if len(key) == 4 else name
