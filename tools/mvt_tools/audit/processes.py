"""The work spread over processes of this machine. They are spoken with by pipes; there is no socket."""

import contextlib
import multiprocessing
import os
import pickle
import signal
import sys
import tempfile
import threading
from collections import Counter, deque
from multiprocessing import resource_tracker
from multiprocessing.connection import Connection, wait
from queue import SimpleQueue
from typing import Deque, Iterator, List, Optional, Tuple

from .._command import path_without_here
from .._ending import bound_memory
from .._shown import shown
from .engine import EngineError, Finished, Task, Work
from .judging import judged_part

# A part is given up when so many processes have ended over it, and the audit when so many in a row end as they start.
TRIES, STARTS = 3, 10

# How many parts wait for each worker, of which it has two itself: so none is idle while the client writes.
AHEAD = 4

# What ends the client. A process that starts doesn't hear it, since it would tell so on the terminal.
_ENDS = (signal.SIGINT, signal.SIGTERM)

_CONTEXT = multiprocessing.get_context("spawn")


class _Worker:
    """A process, and the parts that it has: the first is the one that it is at."""

    def __init__(self, work: Work, shares: int) -> None:
        tasks, self._tasks = _CONTEXT.Pipe(duplex=False)
        self.found, found = _CONTEXT.Pipe(duplex=False)
        self.parts: Deque[Task] = deque()
        self.is_ready = False
        self._process = _CONTEXT.Process(target=_work, args=(tasks, found, work, shares), daemon=True)
        self._process.start()
        # The ends that it has itself: of a process that is gone the other ends tell so.
        tasks.close()
        found.close()

    def hand(self, task: Task) -> None:
        self.parts.append(task)
        # Of a process that is gone the parts are handed to another.
        with contextlib.suppress(BrokenPipeError):
            self._tasks.send_bytes(pickle.dumps((task.store, task.tiles)))

    def end(self) -> int:
        """Ends the process, and answers how it ended."""
        self._process.kill()
        self._process.join()
        self._tasks.close()
        self.found.close()
        return self._process.exitcode or 0


class Processes:
    """So many processes, which do something with parts. Where one ends, another takes its place and its parts."""

    def __init__(self, count: int, work: Work = judged_part) -> None:
        self.count, self.ahead = count, AHEAD * count
        self._work = work
        # How many ended that nobody had asked to.
        self.ended = 0
        self._failed_starts = 0
        self._tried: "Counter[Tuple[str, int]]" = Counter()
        self._waiting: Deque[Task] = deque()
        self._workers: List[_Worker] = []
        # They start in a folder of nobody's: Python takes its own modules from the folder that it starts in.
        self._folder = tempfile.TemporaryDirectory(prefix="mvt-audit-")
        try:
            for _ in range(count):
                self._start()
            while not all(worker.is_ready for worker in self._workers):
                self._hear()
        except BaseException:
            self.close()
            raise

    def close(self) -> None:
        for worker in self._workers:
            worker.end()
        self._folder.cleanup()

    def hand(self, task: Task) -> None:
        self._waiting.append(task)
        self._feed()

    def handed(self) -> int:
        return len(self._waiting) + sum(len(worker.parts) for worker in self._workers)

    def finished(self) -> List[Finished]:
        found: List[Finished] = []
        while not found:
            found = self._hear()
            self._feed()
        return found

    def _start(self) -> None:
        with _started_from(self._folder.name):
            resource_tracker.ensure_running()
            held = signal.pthread_sigmask(signal.SIG_BLOCK, _ENDS)
            try:
                self._workers.append(_Worker(self._work, self.count))
            finally:
                signal.pthread_sigmask(signal.SIG_SETMASK, held)

    def _feed(self) -> None:
        """Hands out what waits: a part to each idle worker, and a second one while more are left than would be idle."""
        while self._waiting:
            worker = min(self._workers, key=lambda worker: len(worker.parts))
            if len(worker.parts) > (1 if len(self._waiting) > self.count else 0):
                return
            worker.hand(self._waiting.popleft())

    def _hear(self) -> List[Finished]:
        """Waits until workers say something, and answers the parts that are finished."""
        workers = {worker.found: worker for worker in self._workers}
        found: List[Finished] = []
        for each in wait(list(workers)):
            worker = workers[each]  # type: ignore[index]
            try:
                said = worker.found.recv()
            except (EOFError, OSError):
                found += self._replace(worker)
                continue
            if said is None:
                worker.is_ready, self._failed_starts = True, 0
            else:
                found.append(Finished(worker.parts.popleft(), *said))
        return found

    def _replace(self, worker: _Worker) -> List[Finished]:
        """Has another process take the place and the parts of one that ended, but for a part that it isn't the first to
        end over: that one is finished."""
        self._workers.remove(worker)
        how, given_up = _ended(worker.end()), []
        self.ended += 1
        if not worker.is_ready:
            self._failed_starts += 1
            if self._failed_starts == STARTS:
                raise EngineError(f"no worker starts: {STARTS} in a row ended, the last {how}")
        elif worker.parts:
            task = worker.parts[0]
            self._tried[task.name()] += 1
            if self._tried[task.name()] == TRIES:
                given_up.append(
                    Finished(worker.parts.popleft(), None, f"{TRIES} workers ended over it, the last {how}")
                )
        self._waiting.extendleft(reversed(worker.parts))
        self._start()
        return given_up


def _ended(code: int) -> str:
    """How a process ended, in words."""
    return f"by {signal.Signals(-code).name}" if code < 0 else f"with status {code}"


@contextlib.contextmanager
def _started_from(folder: str) -> Iterator[None]:
    """Has this process be in a folder, and import nothing from the one that it was in."""
    path = sys.path[:]
    with contextlib.ExitStack() as then:
        # There is no way back to a folder that this user may not enter.
        with contextlib.suppress(PermissionError):
            here = os.open(".", getattr(os, "O_PATH", os.O_RDONLY))
            then.callback(os.close, here)
            then.callback(os.fchdir, here)
        try:
            sys.path[:] = path_without_here()
            os.chdir(folder)
            yield
        finally:
            sys.path[:] = path


def _work(tasks: Connection, found: Connection, work: Work, shares: int) -> None:
    """What one of so many workers does until its client is gone."""
    bound_memory(shares)
    signal.pthread_sigmask(signal.SIG_UNBLOCK, [signal.SIGTERM])
    waiting: "SimpleQueue[bytes]" = SimpleQueue()
    threading.Thread(target=_receive, args=(tasks, waiting), daemon=True).start()
    try:
        found.send(None)
        while True:
            found.send(_done(waiting.get(), work))
    except OSError:
        os._exit(0)  # nobody hears it


def _receive(tasks: Connection, waiting: "SimpleQueue[bytes]") -> None:
    """Takes in the parts, and ends the process when the client is gone, whatever it is at."""
    try:
        while True:
            waiting.put(tasks.recv_bytes())
    except (EOFError, OSError):
        os._exit(0)


def _done(task: bytes, work: Work) -> Tuple[Optional[bytes], str]:
    """What is made of a part; or None, and why not."""
    try:
        store, tiles = pickle.loads(task)
        return work(store, tiles), ""
    except Exception as why:
        return None, shown(f"{type(why).__name__}: {why}", 300)
