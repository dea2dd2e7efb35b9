"""Requests of somebody who wishes the server ill: heads that are none, connections that are only held, bodies that stop and
answers that nobody reads. Each gets an HTTP answer or a closed connection, and others are served meanwhile."""

import io
import os
import re
import socket
import sqlite3
import subprocess
import time
from contextlib import ExitStack, closing
from email.message import Message
from http.client import HTTPException, parse_headers

import pytest
from hypothesis import HealthCheck, given, settings
from hypothesis import strategies as some

from make_stores import make_mbtiles
from mvt_tools.page import admission, frames, listing
from serving import COMMAND, TILES, Serving

GDAL = (TILES / "gdal.mvt").read_bytes()
PORT = 4711
TURNS = os.cpu_count() or 1
often = settings(max_examples=200, deadline=None, database=None, suppress_health_check=list(HealthCheck))


def head(serving, *lines, method="GET", path="given"):
    """The head of a request, with some lines behind that of the host."""
    return "\r\n".join(
        [f"{method} {serving.path}{path} HTTP/1.1", f"Host: 127.0.0.1:{serving.port}", *lines, "", ""]
    ).encode("latin-1")


def status(serving, sent, ends=True):
    """The status of the answer; 0 where the connection is only closed. `ends`: that no more bytes come is told."""
    got = serving.raw(sent, ends)
    assert not got or re.match(rb"HTTP/1\.1 \d{3} ", got), got[:100]
    return int(got[9:12] or 0)


def connected(serving, held):
    connection = held.enter_context(socket.create_connection(("127.0.0.1", serving.port), timeout=60))
    return connection


def is_there(serving):
    """Whoever asks now is answered."""
    assert serving.call("judge", GDAL) == bytes(8)


# ---- heads

LINES = [
    "X : a",
    "nothing",
    " a: b",
    "\ta: b",
    "From somebody",
    ": a",
    "é: a",
    "X\0: a",
    "X: a\r\n b",
    "X\x7f: a",
    "X: a\rY : b",
    "X: a\r\rY: b",
    "X: a\r\r\nnothing",
]


@pytest.mark.parametrize("line", LINES)
@pytest.mark.parametrize("hidden", ["Origin: http://evil.example", "Transfer-Encoding: chunked", "Accept: */*"])
def test_a_line_that_is_no_header_is_refused_with_what_stands_behind_it(serving, line, hidden):
    assert status(serving, head(serving, line, hidden)) == 400
    assert (
        status(serving, head(serving, line, hidden, f"Content-Length: {len(GDAL)}", method="POST", path="judge") + GDAL)
        == 400
    )


@pytest.mark.parametrize("lengths", [["0", "0"], ["0", "5"], ["5", "0"], ["5"], ["00"], ["-0"], [""], ["0, 0"], ["x"]])
def test_a_question_has_no_body(serving, lengths):
    """Nor one that a second length tells of, which would be read as a request."""
    lines = [f"Content-Length: {length}" for length in lengths]
    got = serving.raw(head(serving, *lines) + head(serving, path="nothing"))
    assert got.startswith(b"HTTP/1.1 400 ") and got.count(b"HTTP/1.1") == 1


@pytest.mark.parametrize("coding", ["chunked", "", "identity", "gzip, chunked"])
def test_a_body_comes_in_one_piece(serving, coding):
    assert status(serving, head(serving, f"Transfer-Encoding: {coding}") + b"0\r\n\r\n") == 400
    assert (
        status(
            serving,
            head(serving, f"Transfer-Encoding: {coding}", "Content-Length: 1", method="POST", path="judge") + b"\0",
        )
        == 411
    )


@pytest.mark.parametrize("lengths", [["1", "1"], ["1", "2"], ["1", "x"]])
def test_a_body_has_one_length(serving, lengths):
    lines = [f"Content-Length: {length}" for length in lengths]
    assert status(serving, head(serving, *lines, method="POST", path="judge") + b"\0") == 400


PIECES = [
    "Host",
    "Origin",
    "Sec-Fetch-Site",
    "X",
    ":",
    " ",
    "\t",
    "\r\n",
    "\n",
    "\r",
    "\0",
    "é",
    "\x85",
    "\x0b",
    "none",
    "null",
    f"127.0.0.1:{PORT}",
    f"http://127.0.0.1:{PORT}",
    "http://evil.example",
    f"Host: 127.0.0.1:{PORT}\r\n",
    "From a\r\n",
]


@often
@given(some.lists(some.sampled_from(PIECES), max_size=12).map("".join))
def test_what_the_guard_lets_through_it_has_read_whole(told):
    """A strict reader, which shares no code with Python's, finds the same host and origins in the head."""
    told = f"Host: 127.0.0.1:{PORT}\r\n{told}\r\n\r\n"
    try:
        headers = parse_headers(io.BytesIO(told.encode("latin-1")))
    except HTTPException:
        return
    if not admission.are_headers(headers) or admission.denial(headers, PORT, False):
        return
    lines = re.split("\r\n|\r|\n", re.split("\r?\n\r?\n", told)[0])
    assert all(re.fullmatch("[!-9;-~]+:[^\r\n]*", line) for line in lines)
    fields = [
        (name.lower(), value.strip(" \t\x0b\x85\0").lower())
        for name, _, value in (line.partition(":") for line in lines)
    ]
    assert [value for name, value in fields if name == "host"] == [f"127.0.0.1:{PORT}"]
    assert {value for name, value in fields if name == "origin"} <= {f"http://127.0.0.1:{PORT}"}
    assert {value for name, value in fields if name == "sec-fetch-site"} <= {"none", "same-origin"}


def test_the_guard_takes_what_a_browser_sends():
    headers = Message()
    for name, value in [
        ("Host", f"127.0.0.1:{PORT}"),
        ("Origin", f"http://127.0.0.1:{PORT}"),
        ("Sec-Fetch-Site", "same-origin"),
        ("Content-Type", "text/plain"),
    ]:
        headers[name] = value
    headers.set_payload("")
    assert admission.are_headers(headers) and admission.denial(headers, PORT, False) == ""


names = some.one_of(
    some.sampled_from(
        ["Host", "Origin", "Content-Length", "Transfer-Encoding", "Expect", "Connection", "Content-Type", "X"]
    ),
    some.text(max_size=8),
)
values = some.one_of(
    some.sampled_from(
        ["0", "1", "100-continue", "close", "keep-alive, close", "chunked", "multipart/form-data", "message/rfc822"]
    ),
    some.text(max_size=30),
)
paths = some.one_of(
    some.sampled_from(["given", "judge", "files/0", "stores/0/tiles", "stores/0/tile?key=[", "?", "%00", "../", "//"]),
    some.text(max_size=20),
)


@often
@given(
    some.sampled_from(["GET", "HEAD", "POST", "PUT", "", "GET GET"]),
    paths,
    some.lists(some.tuples(names, values), max_size=5),
    some.binary(max_size=40),
)
def test_any_head_is_answered_or_its_connection_closed(serving, method, path, fields, body):
    lines = [
        f"{method} {serving.path}{path} HTTP/1.1",
        f"Host: 127.0.0.1:{serving.port}",
        *(f"{name}: {value}" for name, value in fields),
        "",
        "",
    ]
    assert status(serving, "\r\n".join(lines).encode("utf-8", "replace") + body) != 500


@often
@given(some.binary(max_size=200))
def test_any_bytes_are_answered_or_their_connection_closed(serving, sent):
    assert status(serving, sent) != 500


# ---- keys

KEYS = {
    "brackets": "[" * 1000,
    "brackets that close": "[" * 500 + "]" * 500,
    "braces": "{" * 500,
    "objects": '{"a":' * 190,
    "long": "[" * 30_000,
    "a long number": "[1" + "0" * 900 + "]",
    "NaN": "[NaN]",
    "infinity": "[-Infinity]",
    "half a letter": '["\\ud800",0,0]',
    "beyond a double": "[1e999]",
    "no JSON": "nul",
}


@pytest.mark.parametrize("key", KEYS.values(), ids=KEYS)
def test_a_key_that_is_none(tmp_path, key):
    with Serving(make_mbtiles(tmp_path / "a.mbtiles", {(1, 0, 0): GDAL})) as serving:
        for path in (f"tile?key={key}", f"tiles?after={key}", f"tiles?from={key}"):
            assert status(serving, head(serving, "Connection: close", path=f"stores/0/{path}"), ends=False) in (
                400,
                404,
            )
        assert serving.end()[2] == ""


@often
@given(some.one_of(some.text(max_size=1200), some.text(alphabet='[]{}",:-0123456789eE.\\u truefalsn', max_size=1200)))
def test_any_text_is_a_key_or_none(told):
    try:
        key = listing.key_of(told)
    except ValueError:
        return
    assert isinstance(key, tuple) and all(type(each) in (int, str) for each in key)


@often
@given(some.binary(max_size=60), some.integers(0, 3))
def test_any_body_is_framed_or_refused(body, least):
    """The parts of one that is framed stand one behind the other, up to its end."""
    try:
        found = frames.places(body, least)
    except frames.FrameError:
        return
    assert len(found) >= least
    assert b"".join(body[each] for each in found) == body[4 + 4 * len(found) :]


# ---- connections that are only held


def test_who_holds_connections_keeps_nobody_out(serving):
    """All are taken, and the page still gets what it asks for, at once and as often as it asks."""
    with ExitStack() as held:
        idle = [connected(serving, held) for _ in range(64)]
        for _ in range(5):
            is_there(serving)
        idle[0].settimeout(60)
        assert idle[0].recv(1) == b"", "the one that has waited longest goes"
        idle[-1].sendall(head(serving))
        assert idle[-1].recv(12) == b"HTTP/1.1 200", "and the last stays"


def test_who_asks_without_the_token_keeps_nobody_out(serving):
    with ExitStack() as held:
        for _ in range(64):
            connected(serving, held).sendall(b"GET /x/ HTTP/1.1\r\nHost: 127.0.0.1:%d\r\n\r\n" % serving.port)
        is_there(serving)


# ---- turns, of which there are as many as processors


def test_bodies_that_stop_keep_nobody_from_working(serving):
    with ExitStack() as held:
        for _ in range(TURNS + 1):
            connected(serving, held).sendall(
                head(serving, "Content-Length: 1000", method="POST", path="judge") + b"\x1a"
            )
        time.sleep(0.5)
        is_there(serving)


def test_answers_that_nobody_reads_keep_nobody_from_working(serving):
    """Each has more bytes than the system takes in between."""
    tile = bytes([0x1A, 0xF9, 0xFF, 0x3F, 0x78, 2, 0x0A, 1, 0x61]) + bytes([0x12, 0]) * 524_282
    assert len(serving.call("read", tile)) > 30_000_000
    with ExitStack() as held:
        for _ in range(TURNS + 1):
            connected(serving, held).sendall(
                head(serving, f"Content-Length: {len(tile)}", method="POST", path="read") + tile
            )
        time.sleep(2)
        is_there(serving)


def test_tiles_of_a_store_that_nobody_reads_keep_nobody_from_working(tmp_path):
    with Serving(make_mbtiles(tmp_path / "a.mbtiles", {(1, 0, 0): bytes(30_000_000)})) as serving, ExitStack() as held:
        for _ in range(TURNS + 1):
            connected(serving, held).sendall(head(serving, path="stores/0/1/0/0"))
        time.sleep(2)
        is_there(serving)


def test_a_list_that_is_given_up_ends_what_the_store_does_for_it(tmp_path):
    """Of a view that has one row, and looks for the next one for ever."""
    with closing(sqlite3.connect(tmp_path / "a.mbtiles")) as database, database:
        database.execute(
            """create view tiles as select 0 zoom_level, 0 tile_column, 0 tile_row, x'' tile_data union all
            select * from (with recursive c(x) as (select 1 union all select x + 1 from c) select 1, 0, x, x'' from c where x < 0)"""
        )
    os.truncate(tmp_path / "a.mbtiles", 1 << 30)  # for so many bytes the next row may take a quarter of an hour
    with Serving(tmp_path / "a.mbtiles") as serving:
        with ExitStack() as held:
            for _ in range(TURNS + 1):
                connected(serving, held).sendall(head(serving, path="stores/0/tiles"))
            time.sleep(1)
        is_there(serving)
        assert serving.end()[2] == ""


def test_a_length_that_is_only_told_takes_no_memory(serving):
    before = serving.memory("VmData")
    with ExitStack() as held:
        for _ in range(20):
            connected(serving, held).sendall(
                head(serving, "Content-Length: 67108864", method="POST", path="judge") + b"\x1a"
            )
        time.sleep(0.5)
        assert serving.memory("VmData") - before < 400
        is_there(serving)


@pytest.mark.parametrize("env", [{}, {"PYTHONUNBUFFERED": "1"}], ids=["held back", "not held back"])
def test_an_address_that_nobody_learns_is_told_in_a_line(env):
    with open("/dev/full", "wb") as full:
        for how in ({"stdout": full}, {"preexec_fn": lambda: os.close(1)}):
            done = subprocess.run(
                [*COMMAND, "--no-browser"], env={**os.environ, **env}, stderr=subprocess.PIPE, timeout=60, **how
            )
            assert (done.returncode, done.stderr.count(b"\n")) == (3, 1), done.stderr
            assert done.stderr.startswith(b"mvt-page: the output ")
