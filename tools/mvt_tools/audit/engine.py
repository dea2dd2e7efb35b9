"""The work spread over processes of this machine, or over the machines of a cluster."""

import contextlib
import sqlite3
from typing import Any, Callable, Dict, Iterator, List, NamedTuple, Optional, Protocol, Sequence, Tuple

from ..stores import Store, StoreError
from .judging import judged_part
from .results import Added, Block, Done, Results

# How many tiles wait for the workers at most, since their rows may all be in memory where the client is the slowest.
MOST_TILES = 8_000_000

# What is told of each finished part.
Told = Callable[[Added], None]
# What a worker does with a part of a store.
Work = Callable[[Store, Any], bytes]


class EngineError(Exception):
    """Why there are no workers, in a line."""


class Task(NamedTuple):
    """A part of a store: its number, and which of the store's ranges it is."""

    store: Store
    part: int
    tiles: Any

    def name(self) -> Tuple[str, int]:
        return self.store.path, self.part


class Finished(NamedTuple):
    """A part with what a worker made of it, such as the bytes of a block; or None, and why no worker could finish it."""

    task: Task
    content: Optional[bytes]
    why: str = ""


class Lost(NamedTuple):
    """A part that no worker could finish, and why."""

    store: str
    part: int
    why: str


class Workers(Protocol):
    """What does the parts."""

    # How many there are, and how many parts they are handed at a time.
    count: int
    ahead: int
    # How many ended before their time.
    ended: int

    def hand(self, task: Task) -> None:
        """Hands them one more part."""

    def handed(self) -> int:
        """How many parts they have that aren't finished."""

    def finished(self) -> List[Finished]:
        """Waits until some parts are finished. Raises EngineError where the workers are gone."""


@contextlib.contextmanager
def workers(count: int, scheduler: Optional[str], work: Work = judged_part) -> Iterator[Workers]:
    """So many processes of this machine, or the workers of a scheduler."""
    if scheduler is None:
        from .processes import Processes

        with contextlib.closing(Processes(count, work)) as processes:
            yield processes
    else:
        from .cluster import connected

        with connected(scheduler, work) as cluster:
            yield cluster


def run(
    workers: Workers,
    results: Results,
    stores: Sequence[Store],
    done: Dict[str, Done],
    told: Told,
    check: Callable[[], None] = lambda: None,
) -> List[Lost]:
    """Judges what isn't done yet. Answers the parts that no worker could finish. Between two parts `check` may raise what
    ends it."""
    lost: List[Lost] = []

    def take(finished: Sequence[Finished]) -> None:
        lost.extend(Lost(*each.task.name(), each.why) for each in finished if each.content is None)
        blocks = [Block(*each.task.name(), each.content) for each in finished if each.content is not None]
        for added in results.add(blocks):
            told(added)
        check()

    results.drop_index()
    size = results.part_size()
    ahead = min(workers.ahead, max(1, MOST_TILES // size))
    most = {store.path: store.spread(workers.count) or ahead for store in stores}
    for task in parts(stores, done, size):
        while workers.handed() >= most[task.store.path]:
            take(workers.finished())
        workers.hand(task)
    while workers.handed():
        take(workers.finished())
    return lost


def parts(stores: Sequence[Store], done: Dict[str, Done], size: int) -> Iterator[Task]:
    """The parts that aren't done, in order."""
    for store in stores:
        try:
            for part, tiles in enumerate(store.ranges(size)):
                if part not in done[store.path].parts:
                    yield Task(store, part, tiles)
        except (OSError, sqlite3.Error) as why:
            raise StoreError(f"{store.path}: {why}") from why
