"""The server: one socket of this machine's own network, a thread for each connection, and as many calls of the library
at a time as there are processors."""

import os
import secrets
import socket
import sys
import threading
import traceback
from contextlib import contextmanager
from http.server import ThreadingHTTPServer
from socketserver import TCPServer
from typing import Any, Iterator

from .connections import Connections
from .given import Given
from .handler import PATIENCE, Handler, leave_if_gone

HOST = "127.0.0.1"
CONNECTIONS = 64
# So often, in seconds, a call that waits for its turn looks whether anybody still waits for it.
_LOOKED = 0.2
_STACK = 2 << 20


class Server(ThreadingHTTPServer):
    """Serves a page, and what the command was given, below a path that can't be guessed."""

    request_queue_size = CONNECTIONS
    daemon_threads = True
    block_on_close = False

    def __init__(self, port: int, page: bytes, given: Given) -> None:
        self.page, self.given = page, given
        self.token = secrets.token_urlsafe(24)
        self._turns = threading.BoundedSemaphore(os.cpu_count() or 1)
        self.connections = Connections(CONNECTIONS, PATIENCE)
        threading.stack_size(_STACK)
        super().__init__((HOST, port), Handler)

    @property
    def address(self) -> str:
        """Where the page is, with the token."""
        return f"http://{HOST}:{self.server_port}/{self.token}/"

    def server_bind(self) -> None:
        """Without the look-up of the host's name, which may ask a network."""
        TCPServer.server_bind(self)
        self.server_name, self.server_port = HOST, self.server_address[1]

    # ---- connections

    def process_request(self, request: Any, client_address: Any) -> None:
        if self.connections.take(request):
            super().process_request(request, client_address)
        else:
            self.shutdown_request(request)

    def shutdown_request(self, request: Any) -> None:
        self.connections.leave(request)
        super().shutdown_request(request)

    def service_actions(self) -> None:
        self.connections.end_overdue()

    def handle_error(self, request: Any, client_address: Any) -> None:
        error = sys.exc_info()[1]
        if not isinstance(error, (ConnectionError, socket.timeout, TimeoutError)):
            traceback.print_exc()

    # ---- turns

    @contextmanager
    def turn(self, request: Any) -> Iterator[None]:
        """A turn to work. Who has gone before it comes gets none."""
        while not self._turns.acquire(timeout=_LOOKED):
            leave_if_gone(request)
        try:
            yield
        finally:
            self._turns.release()
