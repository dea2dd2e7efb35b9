"""One connection: its requests one after another, each looked at before anything of it is done."""

import json
import re
import secrets
import select
import socket
import time
import traceback
from contextlib import nullcontext
from http.server import BaseHTTPRequestHandler
from typing import TYPE_CHECKING, Any, Dict, List, NamedTuple, Optional, Sequence
from urllib.parse import parse_qsl

from .. import foreign
from ..stores import MOST_ZOOM, Key, Store, StoreError, place_of
from ..stores.unpacking import LIMIT
from ..stores.waiting import asked_while
from . import calls, frames, listing
from .admission import are_headers, denial
from .frames import Part

if TYPE_CHECKING:
    from .server import Server

# So long, in seconds, a head may take, and each piece of a body or an answer.
PATIENCE = 30
# The library has to see one byte more than a tile may have. Frames have room for lengths and names.
MOST = LIMIT + 1
MOST_FRAMED = MOST + (4 << 20)
_PIECE = 1 << 20
# So many bytes of a body are passed over behind an answer that doesn't want it, for so many seconds.
_PASSED_OVER, _PASSING = 1 << 20, 1.0

_PAGE, _TEXT = "text/html; charset=utf-8", "text/plain; charset=utf-8"
_BYTES, _JSON = "application/octet-stream", "application/json"
_ALWAYS = {
    "Cache-Control": "no-store",
    "Cross-Origin-Opener-Policy": "same-origin",
    "Cross-Origin-Resource-Policy": "same-origin",
    "Referrer-Policy": "no-referrer",
    "X-Content-Type-Options": "nosniff",
}
# What is told of a store as JSON.
_LISTS = (["tiles"], ["zoom"])
# The page says its own policy; what isn't the page may do nothing at all.
_OF_PAGE = "frame-ancestors 'none'"
_OF_OTHERS = "default-src 'none'; frame-ancestors 'none'; sandbox"


class Fault(Exception):
    """A request that isn't done, with HTTP's status and a sentence."""

    def __init__(self, status: int, told: str) -> None:
        super().__init__(status, told)
        self.status, self.told = status, told


class Asked(NamedTuple):
    """What stands behind the token: the path's words, and the words of the query."""

    path: List[str]
    query: Dict[str, str]


class Handler(BaseHTTPRequestHandler):
    """A connection of a page."""

    protocol_version = "HTTP/1.1"
    default_request_version = "HTTP/1.0"
    timeout = PATIENCE
    disable_nagle_algorithm = True
    server: "Server"

    def version_string(self) -> str:
        return "mvt-page"

    def log_message(self, format: str, *args: Any) -> None:
        """Nothing is told of a request."""

    def handle_one_request(self) -> None:
        self.server.connections.waits(self.connection)
        super().handle_one_request()

    def do_GET(self) -> None:
        self._do(self._get)

    do_HEAD = do_GET

    def do_POST(self) -> None:
        self._do(self._post)

    def _do(self, method: Any) -> None:
        try:
            asked = self._asked()
            # Whoever has no token stays among those that wait, and goes before others.
            self.server.connections.has_asked(self.connection)
            method(asked)
        except Fault as why:
            self.send_error(why.status, why.told)
        except (ConnectionError, socket.timeout, TimeoutError):
            self.close_connection = True
        except MemoryError:
            self._fail(503, "There is no memory for it.")
        except Exception:
            traceback.print_exc()
            self._fail(500, "The command mvt-page failed, which is a defect of it.")

    def _fail(self, status: int, told: str) -> None:
        """Tells what failed, unless an answer is on its way already."""
        if self._has_answered:
            self.close_connection = True
        else:
            self.send_error(status, told)

    # ---- what is asked, and by whom

    def _asked(self) -> Asked:
        """Raises Fault where it isn't this page that asks."""
        if not are_headers(self.headers):
            raise Fault(400, "A line of the head is no header.")
        path, _, query = self.path.partition("?")
        head, token, *words = path.split("/") if path.count("/") > 1 else ["", "", ""]
        is_page = self.command in ("GET", "HEAD") and words == [""]
        why = denial(self.headers, self.server.server_port, is_page)
        if why:
            raise Fault(403, why)
        if head or not _is_same(token, self.server.token):
            raise Fault(404, "Nothing is here.")
        return Asked(words, dict(parse_qsl(query)))

    # ---- questions without a body

    def _get(self, asked: Asked) -> None:
        if "Transfer-Encoding" in self.headers or self.headers.get_all("Content-Length", ["0"]) != ["0"]:
            raise Fault(400, "This question has no body.")
        if asked.path == [""]:
            self._answer(_PAGE, [self.server.page], _OF_PAGE)
        elif asked.path == ["given"]:
            self._answer(_JSON, [json.dumps(self.server.given.told()).encode()])
        elif asked.path[0] == "files" and len(asked.path) == 2:
            self._answer(_BYTES, [self._file(_number(asked.path[1]))])
        elif asked.path[0] == "stores" and len(asked.path) > 2:
            self._of_store(_number(asked.path[1]), asked)
        else:
            raise Fault(404, "Nothing is here.")

    def _file(self, number: int) -> bytes:
        try:
            return self.server.given.file(number)
        except (IndexError, OSError) as why:
            raise Fault(404, _reason(why)) from why

    # ---- stores

    def _of_store(self, number: int, asked: Asked) -> None:
        """Some tiles of a store, or one."""
        what, stores = asked.path[2:], self.server.given.stores
        if number >= len(stores):
            raise Fault(404, "There is no such store.")
        store = stores[number]
        # Who only waits for another server keeps nobody from working.
        with nullcontext() if store.waits else self.server.turn(self.connection):
            self._leave_if_gone()
            with asked_while(self._leave_if_gone):
                told = self._told_of(store, what, asked.query)
        self._answer(_JSON if what in _LISTS else _BYTES, [told])

    def _told_of(self, store: Store, what: Sequence[str], query: Dict[str, str]) -> bytes:
        """Raises Fault, with the status 404 where there is no such tile and 502 where it can't be read."""
        try:
            if what == ["tiles"]:
                return json.dumps(listing.some(store, _wish(store, query))).encode()
            if what == ["zoom"]:
                return json.dumps(listing.places(store, _zoom(query))).encode()
            return store.held(_key(store, what, query))
        except ConnectionAbortedError:
            raise
        except (ValueError, OverflowError) as why:
            raise Fault(400, "This is no key of a tile.") from why
        except (OSError, StoreError) as why:
            raise Fault(404 if isinstance(why, FileNotFoundError) else 502, _reason(why)) from why

    def _leave_if_gone(self) -> None:
        leave_if_gone(self.connection)

    # ---- calls

    def _post(self, asked: Asked) -> None:
        name = asked.path[0]
        if len(asked.path) != 1 or name not in calls.CALLS:
            raise Fault(404, "There is no such call.")
        self._answer(_BYTES, self._called(name, self._length(MOST_FRAMED if name in calls.FRAMED else MOST)))

    def _called(self, name: str, length: int) -> calls.Answer:
        """What a call answers to the body, which is there before the call takes its turn. Raises Fault."""
        body = self._body(length)
        with self.server.turn(self.connection):
            try:
                return calls.CALLS[name](body)
            except frames.FrameError as why:
                raise Fault(400, f"The body isn't framed: {why}.") from why

    def _length(self, most: int) -> int:
        lengths: List[str] = self.headers.get_all("Content-Length", [])
        if "Transfer-Encoding" in self.headers or not lengths:
            raise Fault(411, "A body has a Content-Length, and comes in one piece.")
        if len(lengths) > 1 or re.fullmatch("[0-9]{1,18}", lengths[0]) is None:
            raise Fault(400, "This Content-Length is no number.")
        length = foreign.spelled(lengths[0])
        if length > most:
            raise Fault(413, f"A body has at most {most} bytes.")
        return length

    def _body(self, length: int) -> bytearray:
        """The whole body, for which memory is taken as it comes. Raises ConnectionAbortedError where it ends early, or
        nobody waits for the answer."""
        body = bytearray()
        while len(body) < length:
            piece = self.rfile.read1(min(_PIECE, length - len(body)))  # type: ignore[attr-defined]
            if not piece:
                raise ConnectionAbortedError("the body ended early")
            body += piece
        self._is_read = True
        leave_if_gone(self.connection)
        return body

    # ---- answers

    _has_answered = False
    _is_read = False

    def parse_request(self) -> bool:
        self._has_answered = self._is_read = False
        return super().parse_request()

    def _answer(self, kind: str, pieces: Sequence[Part], policy: str = _OF_OTHERS, status: int = 200) -> None:
        self._has_answered = True
        self.send_response(status)
        for name, value in _ALWAYS.items():
            self.send_header(name, value)
        self.send_header("Content-Security-Policy", policy)
        self.send_header("Content-Type", kind)
        self.send_header("Content-Length", str(sum(map(len, pieces))))
        if self.close_connection:
            self.send_header("Connection", "close")
        self.end_headers()
        if self.command == "HEAD":
            return
        for piece in pieces:
            for at in range(0, len(piece), _PIECE):
                self.wfile.write(memoryview(piece)[at : at + _PIECE])

    def send_error(self, code: int, message: Optional[str] = None, explain: Optional[str] = None) -> None:
        """A fault in plain text. The connection ends, since a body may stand unread in it."""
        status, told = code, message or self.responses[code][0]
        if code == 501:
            status, told = 405, "There are GET, HEAD and POST."
        self.close_connection = True
        try:
            self._answer(_TEXT, [f"{told}\n".encode("utf-8", "backslashreplace")], status=status)
            self._pass_over()
        except OSError:
            pass  # nobody is there to be told

    def _pass_over(self) -> None:
        """Reads what is still on its way, for a while, so that the answer isn't lost with the connection."""
        if self._is_read:
            return
        self.connection.shutdown(socket.SHUT_WR)
        self.connection.settimeout(_PASSING)
        passed, begun = 0, time.monotonic()
        while passed < _PASSED_OVER and time.monotonic() - begun < _PASSING:
            piece = self.connection.recv(65536)
            if not piece:
                return
            passed += len(piece)


def leave_if_gone(connection: Any) -> None:
    """Raises ConnectionAbortedError where nobody waits for the answer any more."""
    readable = select.select([connection], [], [], 0)[0]
    if readable and connection.recv(1, socket.MSG_PEEK) == b"":
        raise ConnectionAbortedError("the question was given up")


def _is_same(told: str, token: str) -> bool:
    return secrets.compare_digest(told.encode("utf-8", "surrogatepass"), token.encode())


def _number(word: str) -> int:
    """A number of a path. Raises Fault where it is none."""
    if re.fullmatch("0|[1-9][0-9]{0,9}", word) is None:
        raise Fault(404, "Nothing is here.")
    return foreign.spelled(word)


def _key(store: Store, what: Sequence[str], query: Dict[str, str]) -> Key:
    """The key of the tile at Z/X/Y, or the one that the query names. Raises Fault, and ValueError where it is none."""
    if list(what) == ["tile"]:
        return listing.key_of(query.get("key", ""))
    place = place_of(what)
    key = None if place is None else store.find(*place)
    if key is None:
        raise Fault(404, "The store has no such tile.")
    return key


def _wish(store: Store, query: Dict[str, str]) -> listing.Wish:
    """Which tiles are asked for: `from` or `after` a key, `at` or `past` a place, `count`, and `only` broken ones or
    those of a cause."""
    key = None
    for name in {"from", "after"}.intersection(query):
        key = listing.key_of(query[name])
    for name in {"at", "past"}.intersection(query):
        key = _key(store, query[name].split("/"), {})
    only = query.get("only", "")
    cause = None if only in ("", "broken") else _number(only)
    count = min(max(_number(query.get("count", "200")), 1), listing.MOST)
    return listing.Wish(key, "after" in query or "past" in query, count, only != "", cause)


def _zoom(query: Dict[str, str]) -> listing.Zoom:
    """The zoom `z`, and the key to go on `from`."""
    z = _number(query.get("z", ""))
    if z > MOST_ZOOM:
        raise Fault(404, "There is no such zoom.")
    return listing.Zoom(z, listing.key_of(query["from"]) if "from" in query else None)


def _reason(why: Exception) -> str:
    """Why something can't be read, without the paths of this machine."""
    return (why.strerror if isinstance(why, OSError) else None) or "It can't be read."
