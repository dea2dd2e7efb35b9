"""A server that hands out tiles when it is asked: the address of its tiles, or of a TileJSON that tells it. Its tiles are
those of the zooms and the bounds, in the order of z, x and y."""

import errno
import hashlib
import http.client
import io
import math
import re
import reprlib
import socket
import sys
import threading
import time
from collections import deque
from concurrent.futures import Future, wait
from contextlib import closing, suppress
from queue import SimpleQueue
from typing import Any, Deque, Dict, Iterator, List, NamedTuple, Optional, Tuple
from urllib.parse import urljoin, urlsplit

import libmvt
from libmvt.mercator import EDGE, column_of, row_of

from .. import foreign
from .._shown import shown
from ..bounds import DEGREES, FILE, TILEJSON
from . import Address, Content, Key, NotYet, Options, State, Store, StoreError
from .unpacking import NotUnpacked, unpacked

DEEPEST = 30
_PIECE = 1 << 18
# A line has an address in it.
_LONGEST = 1000
_HOLE = re.compile(r"\{(z|x|y|-y)\}")
_NOTHING_THERE = (204, 404)
# So often, in seconds, it is told that an answer hasn't come yet.
_TOLD = 0.2
# A server that sends head and body apart may wait until the head is acknowledged, which else takes 40 ms.
_AT_ONCE = getattr(socket, "TCP_QUICKACK", None)
_HEADERS = {"User-Agent": f"mvt-audit/{libmvt.__version__}", "Accept-Encoding": "gzip", "Accept": "*/*"}


class ServerError(Exception):
    """Why a server gave no tile, in a line."""


class Answer(NamedTuple):
    status: int
    reason: str
    encoding: str
    body: bytes


class Block(NamedTuple):
    """Columns and rows of a zoom, each from one on up to another."""

    z: int
    left: int
    right: int
    top: int
    bottom: int

    def tiles(self) -> int:
        return (self.right - self.left) * (self.bottom - self.top)

    def place(self, number: int) -> Tuple[int, int, int]:
        x, y = divmod(number, self.bottom - self.top)
        return self.z, self.left + x, self.top + y

    def before(self, z: int, x: int, y: int) -> int:
        """How many of its tiles stand before a place, in the order of z, x and y."""
        if self.z != z or not self.left <= x < self.right:
            return self.tiles() if (self.z, self.right) <= (z, x) else 0
        rows = self.bottom - self.top
        return (x - self.left) * rows + min(max(y - self.top, 0), rows)

    def has(self, z: int, x: int, y: int) -> bool:
        return self.z == z and self.left <= x < self.right and self.top <= y < self.bottom


def opened(path: str, options: Options = Options()) -> Optional["Server"]:
    return Server(path, options) if path.startswith(("http://", "https://")) else None


class Server(Store):
    kind = "server"
    waits = True

    def __init__(self, path: str, options: Options) -> None:
        self.path = path
        self._options = options
        self._template = path
        self._blocks: List[Block] = []
        self._threads = 1
        self._kept: List["_Askers"] = []

    def check(self) -> None:
        """Finds out which tiles are asked for. Nothing but a TileJSON is asked."""
        zooms, bounds = self._options.zooms, self._options.bounds
        if not _HOLE.search(self.path):
            said = self._tilejson()
            self._template = _template_of(self.path, said)
            zooms = zooms or _zooms_of(self.path, said)
            bounds = bounds or _bounds_of(self.path, said)
        holes = {hole.strip("-") for hole in _HOLE.findall(self._template)}
        if holes != {"z", "x", "y"}:
            raise StoreError(f"{shown(self._template)}: an address of tiles has {{z}}, {{x}} and {{y}} or {{-y}} in it")
        host = _host_of(self._template)
        if host != _host_of(self.path):
            _say(f"{self.path}: its tiles are those of another host, {host}")
        if zooms is None:
            raise StoreError(f"{self.path}: which zooms? say --zooms 0-14, for example")
        self._blocks = list(_blocks(zooms, bounds or (-180, -90, 180, 90)))

    def state(self) -> State:
        self.check()
        told = f"{self._template} {self._blocks}"
        return State(sum(block.tiles() for block in self._blocks), hashlib.sha256(told.encode()).hexdigest())

    def metadata(self) -> Dict[str, Any]:
        return {} if _HOLE.search(self.path) else self._tilejson()

    def ranges(self, size: int) -> Iterator[Tuple[int, int]]:
        total = sum(block.tiles() for block in self._blocks)
        for first in range(0, total, size):
            yield first, min(first + size, total)

    def tiles(self, part: Tuple[int, int]) -> Iterator[Tuple[Address, Content]]:
        with closing(_Askers(self._client(), self._threads)) as askers:
            for address, content in self._asked(askers, self._addresses(part), 2 * self._threads):
                if not isinstance(content, NotYet):
                    yield address, content

    def tile(self, address: Address) -> bytes:
        with closing(self._client()) as client:
            content = client.content(self.link(address))
        if content is None:
            raise FileNotFoundError(errno.ENOENT, "the server has no such tile")
        if isinstance(content, Exception):
            raise OSError(errno.EIO, str(content))
        return content

    # A key is z, x and y. Whether a tile is there, only its answer tells.

    def since(self, key: Optional[Key]) -> Iterator[Tuple[Key, Address, Content]]:
        return self._told(self._addresses_from((0, 0, 0) if key is None else _checked(key)))

    def after(self, key: Key) -> Iterator[Tuple[Key, Address, Content]]:
        first = _checked(key)
        return self._told(address for address in self._addresses_from(first) if address[:3] != first)

    def first_key(self, z: int) -> Optional[Key]:
        return z, 0, 0

    def find(self, z: int, x: int, y: int) -> Optional[Key]:
        return (z, x, y) if any(block.has(z, x, y) for block in self._blocks) else None

    def held(self, key: Key) -> bytes:
        place = _checked(key)
        if self.find(*place) is None:
            raise FileNotFoundError(errno.ENOENT, "no such tile is asked for")
        return self.tile(Address(*place))

    def options(self) -> List[str]:
        """Those that aren't what they are where nothing is said."""
        zooms, bounds, requests, timeout = self._options
        told = {
            "--zooms": zooms and "-".join(map(str, zooms)),
            "--bounds": bounds and ",".join(f"{degrees:.15g}" for degrees in bounds),
            "--requests": requests != Options().requests and str(requests),
            "--timeout": timeout != Options().timeout and f"{timeout:g}",
        }
        return [word for name, value in told.items() if value for word in (name, value)]

    def link(self, address: Address) -> str:
        z, y = address.z or 0, address.y or 0
        holes = {"z": z, "x": address.x, "y": y, "-y": (1 << z) - 1 - y}
        return _HOLE.sub(lambda hole: str(holes[hole[1]]), self._template)

    def spread(self, workers: int) -> Optional[int]:
        """Each range is asked for by so many threads that all workers together make the requests that are wanted."""
        self._threads = max(1, self._options.requests // max(1, workers))
        return max(1, self._options.requests // self._threads)

    def _addresses(self, part: Tuple[int, int]) -> Iterator[Address]:
        first, end = part
        for block in self._blocks:
            count = block.tiles()
            for number in range(max(first, 0), min(end, count)):
                yield Address(*block.place(number))
            first, end = first - count, end - count

    def _addresses_from(self, first: Tuple[int, int, int]) -> Iterator[Address]:
        for block in sorted(self._blocks):
            for number in range(block.before(*first), block.tiles()):
                yield Address(*block.place(number))

    def _told(self, addresses: Iterator[Address]) -> Iterator[Tuple[Key, Address, Content]]:
        """Tiles with their keys, for which as many requests are made at a time as are wanted. Connections are kept for
        further questions, but where an answer that nobody waits for any more doesn't come soon."""
        most = self._options.requests
        try:
            askers = self._kept.pop()
        except IndexError:
            askers = _Askers(self._client(), most)
        try:
            with closing(self._asked(askers, addresses, most)) as asked:  # type: ignore[type-var]
                for address, content in asked:
                    yield address[:3], address, content
        finally:
            if askers.is_free:
                self._kept.append(askers)
            else:
                askers.close()

    def _asked(self, askers: "_Askers", addresses: Iterator[Address], ahead: int) -> Iterator[Tuple[Address, Content]]:
        """The tiles in order, while so many behind them are asked for already; and a NotYet with the next of them every
        while that it doesn't come."""
        waiting: Deque[Tuple[Address, "Future[Content]"]] = deque()
        try:
            for address in addresses:
                waiting.append((address, askers.ask(self.link(address))))
                if len(waiting) > ahead:
                    yield from _awaited(*waiting[0])
                    waiting.popleft()
            while waiting:
                yield from _awaited(*waiting[0])
                waiting.popleft()
        finally:
            askers.drop([content for _, content in waiting])

    def _client(self) -> "_Client":
        return _Client(self._options.timeout)

    def _tilejson(self) -> Dict[str, Any]:
        try:
            with closing(self._client()) as client:
                answer = client.answer(self.path, TILEJSON)
            said = foreign.parsed(_plain(answer)) if answer.status == 200 else None
        except ServerError as why:
            raise StoreError(f"{self.path}: {why}") from why
        except ValueError as why:
            raise StoreError(f"{self.path}: no TileJSON: {why}") from why
        if answer.status != 200:
            raise StoreError(f"{self.path}: {answer.status} {shown(answer.reason)}")
        if not isinstance(said, dict):
            raise StoreError(f"{self.path}: no TileJSON, and no address with {{z}}, {{x}} and {{y}} in it")
        return said


def _awaited(address: Address, content: "Future[Content]") -> Iterator[Tuple[Address, Content]]:
    """A tile, and before it a NotYet every while that it doesn't come."""
    while content not in wait([content], _TOLD).done:
        yield address, NotYet()
    yield address, content.result()


class _Askers:
    """Threads that ask a client. They never keep the process from ending."""

    def __init__(self, client: "_Client", count: int) -> None:
        self._client, self._count, self.is_free = client, count, False
        self._asked: "SimpleQueue[Optional[Tuple[str, Future[Content]]]]" = SimpleQueue()
        for _ in range(count):
            threading.Thread(target=self._ask_all, daemon=True).start()

    def ask(self, address: str) -> "Future[Content]":
        answer: "Future[Content]" = Future()
        self._asked.put((address, answer))
        return answer

    def drop(self, answers: List["Future[Content]"]) -> None:
        """Takes back what nobody waits for any more. Of what is asked already it waits a while whether that comes."""
        self.is_free = not wait([answer for answer in answers if not answer.cancel()], _TOLD).not_done

    def close(self) -> None:
        """Ends the threads, and what they ask. They are not waited for."""
        for _ in range(self._count):
            self._asked.put(None)
        self._client.close()

    def _ask_all(self) -> None:
        for address, answer in iter(self._asked.get, None):
            if answer.set_running_or_notify_cancel():
                try:
                    answer.set_result(self._client.content(address))
                except BaseException as why:
                    answer.set_exception(why)
        self._client.leave()


class _Client:
    """Asks a server, each thread over a connection of its own, which is kept."""

    def __init__(self, timeout: float) -> None:
        self._timeout = timeout
        self._local = threading.local()
        self._all: List["_Connection"] = []
        self._is_closed = False

    def close(self) -> None:
        """Ends what any thread asks. Threads of their own give their connections back by `leave`."""
        self._is_closed = True
        for connection in list(self._all):
            connection.end()
        self.leave()

    def leave(self) -> None:
        """Gives back the connection of this thread."""
        kept: Optional[_Connection] = getattr(self._local, "kept", None)
        if kept is not None:
            kept.close()

    def content(self, address: str) -> Content:
        """The body of a tile as it is stored; None where there is no tile."""
        try:
            answer = self.answer(address, FILE)
        except ServerError as why:
            return why
        if answer.status in _NOTHING_THERE:
            return None
        if answer.status != 200:
            return ServerError(f"{answer.status} {shown(answer.reason)}".strip())
        if answer.encoding not in ("", "identity", "gzip", "x-gzip"):
            return ServerError(f"it answers in the encoding {shown(answer.encoding)}")
        return answer.body

    def answer(self, address: str, most: int) -> Answer:
        """What the server says, of whose body at most so many bytes are read. Raises ServerError."""
        try:
            host = urlsplit(address)
            connection = self._connection(host.scheme, host.netloc)
        except (http.client.HTTPException, ValueError) as why:
            raise ServerError(_told(why, self._timeout)) from why
        path = (host.path or "/") + (f"?{host.query}" if host.query else "")
        is_kept = connection.is_open()
        try:
            try:
                return connection.asked(path, most, self._timeout)
            except (http.client.RemoteDisconnected, ConnectionResetError, BrokenPipeError):
                # A server may end a connection that was kept, just as it is asked again.
                if not is_kept or self._is_closed:
                    raise
                return connection.asked(path, most, self._timeout)
        except (OSError, http.client.HTTPException, ValueError) as why:
            connection.close()
            raise ServerError(_told(why, self._timeout)) from why

    def _connection(self, scheme: str, netloc: str) -> "_Connection":
        kept: Optional[_Connection] = getattr(self._local, "kept", None)
        if kept is None or kept.server != (scheme, netloc):
            kept = self._local.kept = _Connection(scheme, netloc)
            self._all.append(kept)
        return kept


class _Connection:
    """A connection to a server, over which no answer takes longer than it may, however slowly its bytes come."""

    def __init__(self, scheme: str, netloc: str) -> None:
        kind = http.client.HTTPSConnection if scheme == "https" else http.client.HTTPConnection
        self.server = scheme, netloc
        self._http: Any = kind(netloc)
        self._http.response_class = self._response
        self._sock: Optional[socket.socket] = None
        self._ends, self._is_ended = 0.0, False

    def is_open(self) -> bool:
        return self._http.sock is not None

    def close(self) -> None:
        self._http.close()

    def end(self) -> None:
        """Ends what another thread asks. That thread closes the connection."""
        self._is_ended, sock = True, self._sock
        if sock is not None:
            with suppress(OSError):
                socket.socket.shutdown(sock, socket.SHUT_RDWR)

    def asked(self, path: str, most: int, timeout: float) -> Answer:
        self._ends = time.monotonic() + timeout
        if not self.is_open():
            self._http.timeout = timeout
            self._http.connect()
            self._sock = self._http.sock
        self._http.sock.settimeout(timeout)
        try:
            if self._is_ended:
                raise ConnectionAbortedError(errno.ECONNABORTED, "nobody waits for it any more")
            self._http.request("GET", path, headers=_HEADERS)
            response = self._http.getresponse()
            with response:
                body = _body_of(response, most)
                is_whole = response.isclosed()
        except BaseException:
            self._http.close()
            raise
        if not is_whole:
            # The rest is neither wanted nor waited for.
            self._http.close()
        encoding = (response.getheader("Content-Encoding") or "").strip().lower()
        return Answer(response.status, response.reason, encoding, body)

    def _response(self, sock: socket.socket, *arguments: Any, **named: Any) -> http.client.HTTPResponse:
        timed: Any = _Timed(sock, self._ends)
        return http.client.HTTPResponse(timed, *arguments, **named)


def _body_of(response: http.client.HTTPResponse, most: int) -> bytes:
    """At most so many bytes of a body. Python 3.9 makes room for as many bytes as are asked for, so that is in pieces."""
    body = bytearray()
    while len(body) < most:
        piece = response.read(min(most - len(body), _PIECE))
        if not piece:
            break
        body += piece
    if len(body) < most and response.length:
        raise http.client.IncompleteRead(bytes(body), response.length)
    return bytes(body)


class _Timed(io.RawIOBase):
    """What comes over a socket until a time."""

    def __init__(self, sock: socket.socket, ends: float) -> None:
        # A connection that ends with its answer closes the socket at the head of it, which a file of it holds open.
        self._sock, self._held, self._ends = sock, sock.makefile("rb", buffering=0), ends

    def makefile(self, mode: str) -> io.BufferedReader:
        return io.BufferedReader(self)

    def readable(self) -> bool:
        return True

    def close(self) -> None:
        self._held.close()
        super().close()

    def readinto(self, room: Any) -> int:
        left = self._ends - time.monotonic()
        if left <= 0:
            raise socket.timeout
        self._sock.settimeout(left)
        if _AT_ONCE is not None:
            self._sock.setsockopt(socket.IPPROTO_TCP, _AT_ONCE, 1)
        return self._sock.recv_into(room)


def _checked(key: Key) -> Tuple[int, int, int]:
    """A key of a server, which is a place. Raises ValueError where it is none."""
    z, x, y = key
    if not (isinstance(z, int) and isinstance(x, int) and isinstance(y, int)):
        raise ValueError("a key is three numbers")
    if not 0 <= z <= DEEPEST or not 0 <= min(x, y) <= max(x, y) < 1 << z:
        raise ValueError("a number is out of range")
    return z, x, y


def _told(why: Exception, timeout: float) -> str:
    """A failed request in plain words."""
    if isinstance(why, (socket.timeout, TimeoutError)):
        return f"no whole answer within {timeout:g} seconds"
    if isinstance(why, http.client.IncompleteRead):
        if why.expected is None:
            return "the body ends early"
        return f"the body ends early: {len(why.partial):,} of {len(why.partial) + why.expected:,} bytes came"
    if isinstance(why, http.client.RemoteDisconnected):
        return "the server ended the connection and answered nothing"
    if isinstance(why, http.client.HTTPException):
        return f"no HTTP: {type(why).__name__} {shown(str(why).strip())}".strip()
    return (why.strerror if isinstance(why, OSError) else None) or shown(str(why)) or type(why).__name__


def _plain(answer: Answer) -> bytes:
    try:
        plain = unpacked(answer.body)
    except NotUnpacked as why:
        raise ServerError(f"its gzip doesn't unpack: {why}") from why
    if len(plain) > TILEJSON:
        raise ServerError(f"no TileJSON: it has more than {TILEJSON:,} bytes")
    return plain


def _host_of(address: str) -> str:
    """The host and the port of an address. Raises StoreError where it has none that can be asked."""
    try:
        told = urlsplit(address)
        host, port = told.hostname, told.port
    except ValueError as why:
        raise StoreError(f"{shown(address)}: no address: {shown(str(why))}") from why
    if not host:
        raise StoreError(f"{shown(address)}: no address: it names no host")
    return f"{host}:{port or (443 if told.scheme == 'https' else 80)}"


def _say(line: str) -> None:
    """A line for whoever started the command, which goes on."""
    if sys.stderr is not None:
        with suppress(OSError):
            print(shown(line, _LONGEST), file=sys.stderr, flush=True)


def _template_of(path: str, said: Dict[str, Any]) -> str:
    """The first address of tiles that a TileJSON says, which may be relative to its own."""
    tiles = said.get("tiles")
    if not isinstance(tiles, list) or not tiles or not isinstance(tiles[0], str):
        raise StoreError(f"{path}: this TileJSON has no 'tiles'")
    try:
        template = urljoin(path, tiles[0])
    except ValueError as why:
        raise StoreError(f"{path}: its tiles have no address: {shown(str(why))}") from why
    if not template.startswith(("http://", "https://")):
        raise StoreError(f"{path}: its tiles have the address {shown(repr(template))}, which is none of HTTP")
    return template.replace("{y}", "{-y}") if said.get("scheme") == "tms" else template


def _zooms_of(path: str, said: Dict[str, Any]) -> Tuple[int, int]:
    told = said.get("minzoom", 0), said.get("maxzoom", DEEPEST)
    first, last = (None if isinstance(zoom, str) else foreign.whole(zoom, 0, DEEPEST) for zoom in told)
    if first is None or last is None or first > last:
        raise StoreError(f"{path}: this TileJSON says the zooms {shown(reprlib.repr(told))}")
    if "maxzoom" not in said:
        raise StoreError(f"{path}: this TileJSON has no 'maxzoom'; say --zooms 0-14, for example")
    return first, last


def _bounds_of(path: str, said: Dict[str, Any]) -> Optional[foreign.Degrees]:
    """The bounds, if it says some. What lies beyond the edge of the map is cut off there."""
    told = said.get("bounds")
    if told is None:
        return None
    bounds = foreign.degrees(told)
    if bounds is None or any(abs(each) > DEGREES for each in bounds):
        raise StoreError(f"{path}: this TileJSON says the bounds {shown(reprlib.repr(told))}")
    return bounds


def _blocks(zooms: Tuple[int, int], bounds: foreign.Degrees) -> Iterator[Block]:
    """The tiles of the zooms that lie within the bounds. Bounds whose west is beyond their east cross longitude 180."""
    west, south, east, north = bounds
    spans = [(west, east)] if west <= east else [(west, 180.0), (-180.0, east)]
    for z in range(zooms[0], zooms[1] + 1):
        top, bottom = _from_to(_row(north), _row(south), z)
        columns = [_from_to(column_of(left), column_of(right), z) for left, right in spans]
        if len(columns) == 2 and columns[0][0] < columns[1][1]:
            columns = [(0, 1 << z)]
        for left, right in columns:
            yield Block(z, left, right, top, bottom)


def _from_to(first: float, last: float, z: int) -> Tuple[int, int]:
    """The columns or rows of a zoom between two places, which are parts of the whole width; at least one."""
    side = 1 << z
    low = min(max(math.floor(first * side), 0), side - 1)
    return low, max(low + 1, min(math.ceil(last * side), side))


def _row(degrees: float) -> float:
    return row_of(min(max(degrees, -EDGE), EDGE))
