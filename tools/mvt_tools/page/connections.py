"""The connections that a server holds: so many at most, of which each waits so long for the head of a request."""

import math
import socket
import threading
import time
from typing import Any, Dict

# Since when a connection waits whose request is being answered.
_NOT_WAITING = math.inf


class Connections:
    """Many threads tell of their own connections."""

    def __init__(self, most: int, patience: float) -> None:
        self._most, self._patience = most, patience
        self._since: Dict[Any, float] = {}
        self._lock = threading.Lock()

    def take(self, connection: Any) -> bool:
        """Takes a connection, and answers whether there is room for it. Where there is none, the one ends that has waited
        longest for a head: so who only holds connections keeps nobody out."""
        with self._lock:
            if len(self._since) >= self._most:
                longest = min(self._since, key=self._since.__getitem__)
                if self._since[longest] == _NOT_WAITING:
                    return False
                del self._since[longest]
                _end(longest)
            self._since[connection] = time.monotonic()
        return True

    def waits(self, connection: Any) -> None:
        """From now on the head of a request is due."""
        with self._lock:
            self._since[connection] = time.monotonic()

    def has_asked(self, connection: Any) -> None:
        """The head of a request is there."""
        with self._lock:
            self._since[connection] = _NOT_WAITING

    def leave(self, connection: Any) -> None:
        """The connection has ended."""
        with self._lock:
            self._since.pop(connection, None)

    def end_overdue(self) -> None:
        """Ends connections whose head is overdue, however slowly it still drips."""
        with self._lock:
            now = time.monotonic()
            for connection in [each for each, since in self._since.items() if now - since > self._patience]:
                _end(connection)


def _end(connection: Any) -> None:
    """Its thread reads an end, and leaves."""
    try:
        connection.shutdown(socket.SHUT_RDWR)
    except OSError:
        pass  # it has ended by itself
