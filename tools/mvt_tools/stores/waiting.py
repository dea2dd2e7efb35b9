"""Whether anybody waits for what a store does."""

import threading
from contextlib import contextmanager
from typing import Callable, Iterator

_LOCAL = threading.local()


@contextmanager
def asked_while(alive: Callable[[], None]) -> Iterator[None]:
    """Within it, what a store does in this thread ends with what `alive` raises, which is called every while."""
    _LOCAL.alive = alive
    try:
        yield
    finally:
        del _LOCAL.alive


def alive() -> None:
    """Raises what ends the work of this thread, if nobody waits for it any more."""
    told = getattr(_LOCAL, "alive", None)
    if told is not None:
        told()
