"""Where tiles are kept. A kind of store is a function of a path and the options, which answers a store for a path that it
takes, None for one that it doesn't, and raises StoreError for one that it should and can't. Those of this package stand in
`opened`; another package brings its own by an entry point of the group `mvt_tools.stores`."""

import importlib
import importlib.metadata
import re
import sys
from abc import ABC, abstractmethod
from contextlib import closing
from typing import Any, Callable, Dict, Iterator, List, NamedTuple, Optional, Sequence, Tuple, Union

from .. import foreign

# The modules of this package that have a kind of store, as their function `opened`.
KINDS = ("server", "listed", "mbtiles", "pmtiles", "tree")
GROUP = "mvt_tools.stores"

# A zoom beyond this is none.
MOST_ZOOM = 30


class StoreError(Exception):
    """Why a store can't be audited, in a line for whoever named it."""


class Address(NamedTuple):
    """Which tile of its store: z, x and y, counted from the north, or a name, or both. Of a run of equal tiles it is the
    first, and says how many they are."""

    z: Optional[int]
    x: Optional[int]
    y: Optional[int]
    name: Optional[str] = None
    tiles: int = 1

    def __str__(self) -> str:
        return self.name if self.name is not None else f"{self.z}/{self.x}/{self.y}"


class State(NamedTuple):
    """How many tiles a store has, and a digest that is another one when they change."""

    tiles: int
    digest: str


class Options(NamedTuple):
    """What the command line says of servers: the first and the last zoom, the bounds in degrees (west, south, east,
    north), how many requests there are at a time, and how many seconds one may take."""

    zooms: Optional[Tuple[int, int]] = None
    bounds: Optional[foreign.Degrees] = None
    requests: int = 8
    timeout: float = 30


class NotYet(Exception):
    """What a store that waits for its tiles tells every while that the next one doesn't come. It is no tile."""


# Where a tile stands in the order of its store: numbers and texts that the store alone understands.
Key = Tuple[Any, ...]

# The bytes of a tile as they are stored, why they can't be read, or None where there is no tile.
Content = Union[bytes, Exception, None]


class Store(ABC):
    """A store of tiles. It is sent to the workers, so it can be pickled, and opens nothing before it is asked."""

    path: str
    kind: str
    # Whether its tiles are waited for more than anything is done for them, as for those of a server.
    waits = False

    def check(self) -> None:
        """Raises StoreError where the store has no tiles, or can't be read, or none of its tiles can be found by its place.
        Nothing is counted."""
        raise StoreError(f"{self.path}: mvt-page doesn't open this kind of store")

    @abstractmethod
    def state(self) -> State:
        """Raises StoreError where there are no tiles."""

    @abstractmethod
    def ranges(self, size: int) -> Iterator[Any]:
        """All tiles, about so many at a time, and in the same order while the state is the same."""

    @abstractmethod
    def tiles(self, part: Any) -> Iterator[Tuple[Address, Content]]:
        """The tiles of a range."""

    @abstractmethod
    def tile(self, address: Address) -> bytes:
        """One tile. Raises OSError where it can't be read."""

    def metadata(self) -> Dict[str, Any]:
        """What the store says of itself, by the names of TileJSON (minzoom, maxzoom, bounds, vector_layers) or of MBTiles
        (texts, and `json`); nothing where it says nothing. Raises OSError, StoreError and ValueError where it can't be read.
        """
        return {}

    def link(self, address: Address) -> Optional[str]:
        """Where a browser finds a tile, if it does."""
        return None

    def options(self) -> List[str]:
        """The words of a command line that it was opened by, beside its path."""
        return []

    def spread(self, workers: int) -> Optional[int]:
        """Of how many ranges the tiles may be asked for at a time, by so many workers; None for any number."""
        return None

    def since(self, key: Optional[Key]) -> Iterator[Tuple[Key, Address, Content]]:
        """The tiles from a key on, or all, each with its key: in the order of z, x and y where the store can tell them
        so. A place whose content is None has no tile. A store that waits tells a NotYet with the next key every while that
        its tile doesn't come. Raises ValueError for a key that is none of this kind of store, OSError and StoreError.
        """
        self.check()
        return iter(())

    def first_key(self, z: int) -> Optional[Key]:
        """A key that no tile of a zoom stands before, and few others behind; None for the first key of all."""
        return None

    def after(self, key: Key) -> Iterator[Tuple[Key, Address, Content]]:
        """The same behind a key."""
        with closing(self.since(key)) as found:  # type: ignore[type-var]
            for each in found:
                if each[0] != key:
                    yield each

    def runs(self, key: Optional[Key]) -> Iterator[Tuple[Key, Address, Content]]:
        """All tiles, or those behind a key. Equal ones that stand one behind another may be one, with the key of the last."""
        return self.since(None) if key is None else self.after(key)

    def find(self, z: int, x: int, y: int) -> Optional[Key]:
        """The key of the tile at a place, or None. A store that waits tells the key without asking. Raises OSError."""
        return None

    def held(self, key: Key) -> bytes:
        """The tile of a key. Raises ValueError for a key that is none, FileNotFoundError where there is no tile, and else
        OSError where it can't be read."""
        raise ValueError(key)

    def lying(self, key: Key) -> bytes:
        """The same as it lies in the store, where that unpacks it to hold it."""
        return self.held(key)


Kind = Callable[[str, Options], Optional[Store]]


def found(path: str, options: Options = Options()) -> Optional[Store]:
    """The store at a path, or None where there is none."""
    for kind in _kinds():
        store = kind(path, options)
        if store is not None:
            return store
    return None


def opened(path: str, options: Options = Options()) -> Store:
    """The store at a path. Raises StoreError where there is none."""
    store = found(path, options)
    if store is not None:
        return store
    raise StoreError(
        f"{path}: no store of tiles; it is a folder {{z}}/{{x}}/{{y}}.mvt or .pbf, an .mbtiles or .pmtiles file,"
        " a .txt file with a file name on each line, or the address of a server"
    )


def place_of(words: Sequence[str]) -> Optional[Tuple[int, int, int]]:
    """z, x and y of a tile, perhaps beyond the world, where some stores have tiles too; None where the words are no place."""
    if len(words) != 3 or not all(re.fullmatch("0|[1-9][0-9]{0,9}", word) for word in words):
        return None
    z, x, y = map(foreign.spelled, words)
    return (z, x, y) if z <= MOST_ZOOM else None


def _kinds() -> Iterator[Kind]:
    for name in KINDS:
        kind: Kind = importlib.import_module(f"{__name__}.{name}").opened
        yield kind
    for point in _entry_points():
        kind = point.load()
        yield kind


def _entry_points() -> List[Any]:
    if sys.version_info >= (3, 10):
        return list(importlib.metadata.entry_points(group=GROUP))
    return list(importlib.metadata.entry_points().get(GROUP, []))
