"""Servers of strangers: how they end their connections, what their heads say, and what a TileJSON names."""

import functools
import gzip
import http.server
import json
import threading
import unicodedata

import pytest
from common import at_places, make_tree
from hostile import audited, in_time, short
from hypothesis import example, given, settings
from hypothesis import strategies as make
from mvt_tools import stores
from mvt_tools.stores import Options, StoreError
from mvt_tools.stores import server as reader
from test_server import Server, sent

# Larger than what comes with a head.
TILE = b"\x1a\x04\x78\x02\x0a\x00" + b"\x7a\x80\xb5\x18" + bytes(400_000)


@pytest.fixture(autouse=True)
def patience():
    with in_time():
        yield


@pytest.fixture
def serving():
    servers = []

    def start(answer):
        servers.append(Server(answer))
        return servers[-1]

    yield start
    for server in servers:
        server.shutdown()
        server.server_close()


def body(path):
    """A body for each path."""
    return path.encode() + TILE


def contents(address, **options):
    """The contents of a store, by the place."""
    store = stores.opened(address, Options(**options))
    store.state()
    return {address[:3]: content for part in store.ranges(1000) for address, content in store.tiles(part)}


# ---- connections that end with each answer

CLOSING = {
    "HTTP/1.0": lambda tile: b"HTTP/1.0 200 OK\r\nContent-Length: %d\r\n\r\n" % len(tile) + tile,
    "HTTP/1.0 without a length": lambda tile: b"HTTP/1.0 200 OK\r\n\r\n" + tile,
    "Connection: close": lambda tile: b"HTTP/1.1 200 OK\r\nConnection: close\r\nContent-Length: %d\r\n\r\n" % len(tile)
    + tile,
    "close without a length": lambda tile: b"HTTP/1.1 200 OK\r\nConnection: close\r\n\r\n" + tile,
    "close in chunks": lambda tile: b"HTTP/1.1 200 OK\r\nConnection: close\r\nTransfer-Encoding: chunked\r\n\r\n%x\r\n%s\r\n0\r\n\r\n"
    % (len(tile), tile),
}


@pytest.mark.parametrize("how", CLOSING)
def test_a_server_that_ends_each_connection_is_read_whole(how, serving):
    server = serving(lambda path: sent(CLOSING[how](body(path))))
    found = contents(server.address + "/{z}/{x}/{y}", zooms=(0, 3))
    assert len(found) == 85
    assert all(content == body(f"/{z}/{x}/{y}") for (z, x, y), content in found.items())
    store = stores.opened(server.address + "/{z}/{x}/{y}", Options(zooms=(0, 1)))
    store.check()
    assert [content == body(f"/{z}/{x}/{y}") for (z, x, y), _, content in store.since(None)] == [True] * 5


def test_pythons_own_server_is_read_whole(tmp_path):
    tiles = at_places([b"%d" % number + TILE for number in range(64)], 3)
    make_tree(tmp_path, tiles, ".pbf")

    class Quiet(http.server.SimpleHTTPRequestHandler):
        def log_message(self, *_):
            pass

    with http.server.ThreadingHTTPServer(("127.0.0.1", 0), functools.partial(Quiet, directory=str(tmp_path))) as server:
        threading.Thread(target=server.serve_forever, daemon=True).start()
        found = contents(f"http://127.0.0.1:{server.server_port}/{{z}}/{{x}}/{{y}}.pbf", zooms=(2, 3))
        server.shutdown()
    assert {place: content for place, content in found.items() if content is not None} == tiles


def test_a_body_that_ends_early_with_its_connection_is_told(serving):
    server = serving(lambda path: sent(b"HTTP/1.0 200 OK\r\nContent-Length: 1000000\r\n\r\n" + TILE))
    [row] = audited(server.address + "/{z}/{x}/{y}", zooms=(0, 0))
    assert (row.verdict, row.notes) == ("unread", f"the body ends early: {len(TILE):,} of 1,000,000 bytes came")


def test_a_body_that_never_ends_takes_no_longer_than_it_may(serving):
    def endless(handler):
        handler.wfile.write(b"HTTP/1.0 200 OK\r\n\r\n")
        for _ in range(200):
            handler.wfile.write(b"\x1a\x02\x0a\x00")
            handler.wfile.flush()
            threading.Event().wait(0.1)

    server = serving(lambda path: endless)
    [row] = audited(server.address + "/{z}/{x}/{y}", zooms=(0, 0), timeout=1)
    assert (row.verdict, row.notes) == ("unread", "no whole answer within 1 seconds")


def test_a_question_that_is_given_up_ends_its_connection(serving):
    """Also where the answer's connection is no longer the client's own."""
    ended = threading.Event()

    def endless(handler):
        handler.wfile.write(b"HTTP/1.0 200 OK\r\n\r\n")
        try:
            while True:
                handler.wfile.write(TILE)
                threading.Event().wait(0.1)
        except OSError:
            ended.set()
            raise

    server = serving(lambda path: endless)
    store = stores.opened(server.address + "/{z}/{x}/{y}", Options(zooms=(0, 0), timeout=120))
    store.check()
    asked = store.since(None)
    next(asked)
    asked.close()
    assert ended.wait(60)


# ---- what a head says


@pytest.mark.parametrize("reason", ["\x1b]0;owned\x07\x1b[2J", "a\x00b", "x" * 50_000, "\x9b31m", ""], ids=short)
def test_a_reason_is_spelled_and_short(reason, serving):
    server = serving(lambda path: sent(b"HTTP/1.1 500 " + reason.encode("latin-1") + b"\r\nContent-Length: 0\r\n\r\n"))
    [row] = audited(server.address + "/{z}/{x}/{y}", zooms=(0, 0))
    assert row.verdict == "unread" and row.notes.startswith("500") and row.notes.isprintable() and len(row.notes) < 110
    with pytest.raises(StoreError) as why:
        audited(server.address + "/tiles.json")
    assert str(why.value).isprintable() and len(str(why.value)) < 200


HEADS = {
    "no head": b"\x00\x01\x02\x03",
    "a long line": b"HTTP/1.1 200 OK\r\nX: " + b"x" * 70_000 + b"\r\n\r\n",
    "many lines": b"HTTP/1.1 200 OK\r\n" + b"X: y\r\n" * 1000 + b"\r\n",
    "no number": b"HTTP/1.1 two OK\r\n\r\n",
    "a terminal's words": b"\x1b]0;owned\x07\x1b[2J\r\n\r\n",
    "another encoding": b"HTTP/1.1 200 OK\r\nContent-Encoding: \x1b[2J\r\nContent-Length: 0\r\n\r\n",
    "no length at all": b"HTTP/1.1 200 OK\r\nContent-Length: -5\r\n\r\n",
    "chunks of no number": b"HTTP/1.1 200 OK\r\nTransfer-Encoding: chunked\r\n\r\nzz\r\n",
    "a chunk without end": b"HTTP/1.1 200 OK\r\nTransfer-Encoding: chunked\r\n\r\n" + b"f" * 5000 + b"\r\n",
}


@pytest.mark.parametrize("head", HEADS)
def test_an_odd_head_is_a_row_of_one_line(head, serving):
    server = serving(lambda path: sent(HEADS[head]))
    for row in audited(server.address + "/{z}/{x}/{y}", zooms=(0, 1)):
        assert row.notes.isprintable() and len(row.notes) < 200
    with pytest.raises(StoreError) as why:
        audited(server.address + "/tiles.json")
    assert str(why.value).isprintable()


# ---- TileJSON

GOOD = {"tiles": ["{z}/{x}/{y}"], "minzoom": 0, "maxzoom": 1}


def told(serving, said):
    """What a store of such a TileJSON answers: its state, or why it has none."""
    server = serving(lambda path: (200, {}, said if isinstance(said, bytes) else json.dumps(said).encode()))
    return stores.opened(server.address + "/tiles.json", Options(timeout=60)).state()


ADDRESSES = ["http://[/{z}/{x}/{y}", "http://[::1/{z}/{x}/{y}", "http://a:b/{z}/{x}/{y}", "http://a:99999999/{z}/{x}/{y}",
             "http://:80/{z}/{x}/{y}", "//[/{z}/{x}/{y}", "file:///etc/passwd?{z}{x}{y}", "data:,{z}{x}{y}", "javascript:{z}{x}{y}", "\x1b[2J{z}",
             "http://a\u2100b/{z}/{x}/{y}", "ftp://a/{z}/{x}/{y}", "x" * 100_000, ""]  # fmt: skip


@pytest.mark.parametrize("address", ADDRESSES, ids=short)
def test_an_odd_address_is_refused_in_a_line(address, serving):
    with pytest.raises(StoreError) as why:
        told(serving, {**GOOD, "tiles": [address]})
    assert str(why.value).isprintable() and len(str(why.value)) < 400


BOUNDS = ["[NaN, 0, 1, 1]", "[0, 0, Infinity, 1]", "[-Infinity, -Infinity, Infinity, Infinity]", f"[{'9' * 400}, 0, 0, 0]", "[1e308, 0, 1e308, 0]",
          f"[{'9' * 5000}, 0, 0, 0]", "[[0], 0, 0, 0]", "[0, 0, 0]", '"everywhere"', '["0", 0, 0, 0]', "{}", "[" * 500 + "]" * 500]  # fmt: skip


@pytest.mark.parametrize("bounds", BOUNDS, ids=short)
def test_odd_bounds_are_refused_in_a_line(bounds, serving):
    said = json.dumps(GOOD)[:-1] + f', "bounds": {bounds}}}'
    with pytest.raises(StoreError) as why:
        told(serving, said.encode())
    assert str(why.value).isprintable() and len(str(why.value)) < 300


@pytest.mark.parametrize(
    "zooms",
    [(0, 31), (-1, 2), (3, 2), ("0", 1), (0, None), (0.5, 1), (0, 10**400), ([], {}), (float("nan"), 1)],
    ids=short,
)
def test_odd_zooms_are_refused_in_a_line(zooms, serving):
    with pytest.raises(StoreError) as why:
        told(serving, {**GOOD, "minzoom": zooms[0], "maxzoom": zooms[1]})
    assert str(why.value).isprintable() and len(str(why.value)) < 300


@pytest.mark.parametrize("said", [b"[" * 100_000, b"[" * 100_000 + b"]" * 100_000, b'{"a":' * 100_000, b"\xff\xfe", b"", b"null", b"[]", b"1", b'"a"',
                                  b'{"tiles": 1}', b'{"tiles": []}', b'{"tiles": [1]}', b"<html>", gzip.compress(b" " * 50_000_000, mtime=0),
                                  gzip.compress(b"{}", mtime=0)[:9]], ids=short)  # fmt: skip
def test_what_is_no_tilejson_is_refused_in_a_line(said, serving):
    with pytest.raises(StoreError) as why:
        told(serving, said)
    assert str(why.value).isprintable() and len(str(why.value)) < 300


def test_another_host_is_named_before_it_is_asked(serving, capfd):
    other = serving(lambda path: (200, {}, b"\x1a\x02\x0a\x00"))
    server = serving(lambda path: (200, {}, json.dumps({**GOOD, "tiles": [other.address + "/{z}/{x}/{y}"]}).encode()))
    store = stores.opened(server.address + "/tiles.json")
    store.check()
    told = capfd.readouterr().err
    assert told == f"{server.address}/tiles.json: its tiles are those of another host, 127.0.0.1:{other.server_port}\n"
    assert other.asked == []
    assert [content for *_, content in store.since(None)] == [b"\x1a\x02\x0a\x00"] * 5


def test_the_same_host_is_not_named(serving, capfd):
    told(serving, GOOD)
    assert capfd.readouterr().err == ""


def test_no_redirect_is_followed(serving):
    other = serving(lambda path: (200, {}, b"\x1a\x02\x0a\x00"))
    server = serving(lambda path: (302, {"Location": other.address + path}, b""))
    rows = audited(server.address + "/{z}/{x}/{y}", zooms=(0, 1))
    assert {(row.verdict, row.notes) for row in rows} == {("unread", "302 Found")}
    with pytest.raises(StoreError, match="302 Found"):
        audited(server.address + "/tiles.json")
    assert other.asked == []


# ---- any TileJSON at all

_LEAVES = (
    make.none()
    | make.booleans()
    | make.integers()
    | make.floats()
    | make.text(max_size=20)
    | make.sampled_from(ADDRESSES + GOOD["tiles"])
)
_ANY = make.recursive(
    _LEAVES,
    lambda inner: make.lists(inner, max_size=5) | make.dictionaries(make.text(max_size=5), inner, max_size=3),
    max_leaves=8,
)
_NAMED = make.fixed_dictionaries(
    {}, optional={name: _ANY for name in ("tiles", "minzoom", "maxzoom", "bounds", "scheme")}
)
_NEARLY = make.fixed_dictionaries(
    {"tiles": make.lists(make.sampled_from(ADDRESSES + GOOD["tiles"]) | make.text(max_size=20), min_size=1, max_size=2)},
    optional={"minzoom": make.integers(-1, 31), "maxzoom": make.integers(-1, 31), "scheme": make.sampled_from(["tms", "xyz"]),
              "bounds": make.lists(make.floats() | make.integers(), min_size=4, max_size=4)},
)  # fmt: skip


def is_shown(text):
    """Whether no letter of a text is obeyed: a space of any kind stays as it is."""
    return all(letter.isprintable() or unicodedata.category(letter) == "Zs" for letter in text)


@settings(max_examples=200, deadline=None)
@given(_NAMED | _NEARLY, make.booleans())
@example({"tiles": ["\xa0"], "maxzoom": 0}, False)
def test_any_tilejson_is_a_store_or_refused(said, is_packed):
    plain = json.dumps(said).encode()
    answer = reader.Answer(200, "OK", "", gzip.compress(plain) if is_packed else plain)
    patch = pytest.MonkeyPatch()
    patch.setattr(reader._Client, "answer", lambda *_: answer)
    try:
        store = stores.opened("http://127.0.0.1:1/tiles.json")
        try:
            state = store.state()
        except StoreError as why:
            assert is_shown(str(why))
            return
        assert 0 < state.tiles < 1 << 63
        assert next(store.ranges(100))[0] == 0
    finally:
        patch.undo()


@settings(max_examples=200, deadline=None)
@given(make.binary(max_size=200))
def test_any_bytes_are_a_tilejson_or_refused(content):
    patch = pytest.MonkeyPatch()
    patch.setattr(reader._Client, "answer", lambda *_: reader.Answer(200, "OK", "", content))
    try:
        with pytest.raises(StoreError):
            stores.opened("http://127.0.0.1:1/tiles.json").state()
    finally:
        patch.undo()
