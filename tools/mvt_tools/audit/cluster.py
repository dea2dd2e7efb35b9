"""The work spread over machines, by Dask."""

import asyncio
import contextlib
import importlib
import importlib.util
import logging
import os
from typing import Any, Dict, Iterator, List

from .._shown import shown
from .engine import EngineError, Finished, Task, Work

# How many parts wait at the scheduler for each worker, so that none of them is idle.
AHEAD = 4

# What Dask is told, unless the environment says something else.
SETTINGS = {
    # It would tell of its own beginning and end on this terminal.
    "LOGGING__DISTRIBUTED": "critical",
    # Each part that is handed out would cost milliseconds, in which Dask looks up the source that hands it out.
    "DISTRIBUTED__DIAGNOSTICS__COMPUTATIONS__IGNORE_MODULES": "['.*']",
    "DISTRIBUTED__DIAGNOSTICS__COMPUTATIONS__NFRAMES": "0",
    # It would look at itself twice a second.
    "DISTRIBUTED__CLIENT__SCHEDULER_INFO_INTERVAL": "10s",
}


@contextlib.contextmanager
def connected(scheduler: str, work: Work) -> Iterator["Cluster"]:
    """The workers of a scheduler. Raises EngineError where none answers."""
    if importlib.util.find_spec("distributed") is None:
        raise EngineError("--scheduler wants Dask: pip install distributed, or Debian's python3-distributed")
    for name, value in SETTINGS.items():
        os.environ.setdefault(f"DASK_{name}", value)
    dask: Any = importlib.import_module("distributed")
    for name in ("distributed", "distributed.client", "tornado", "asyncio"):
        logging.getLogger(name).setLevel(logging.CRITICAL)
    try:
        client = dask.Client(scheduler, timeout=5)
    except (OSError, ValueError, TypeError, RuntimeError, asyncio.TimeoutError) as why:
        raise EngineError(f"{shown(scheduler)}: no scheduler of Dask answers there") from why
    with client:
        try:
            client.wait_for_workers(1, timeout=30)
        except asyncio.TimeoutError as why:
            raise EngineError(f"{shown(scheduler)}: the scheduler has no workers") from why
        yield Cluster(dask, client, work)


class Cluster:
    """The workers of a scheduler."""

    def __init__(self, dask: Any, client: Any, work: Work) -> None:
        self.count = max(1, len(client.nthreads()))
        self.ahead = AHEAD * self.count
        # How many ended is the scheduler's matter.
        self.ended = 0
        self._client, self._work = client, work
        self._waiting = dask.as_completed(with_results=True, raise_errors=False)
        self._handed: Dict[str, Task] = {}

    def hand(self, task: Task) -> None:
        future = self._client.submit(self._work, task.store, task.tiles, pure=False)
        self._handed[future.key] = task
        self._waiting.add(future)

    def handed(self) -> int:
        return len(self._handed)

    def finished(self) -> List[Finished]:
        return [self._finished(future, content) for future, content in self._waiting.next_batch()]

    def _finished(self, future: Any, content: Any) -> Finished:
        task = self._handed.pop(future.key)
        if future.cancelled():
            raise EngineError("the scheduler went away")
        why = future.exception()
        if why is None:
            return Finished(task, content)
        return Finished(task, None, shown(f"{type(why).__name__}: {why}", 300))
