"""MBTiles files of strangers: rows whose places are none, views that never end, values that a few bytes make gigabytes of, and
what stands beside the file."""

import hashlib
import itertools
import os
import resource
import signal
import sqlite3
import tempfile
import time
from contextlib import closing
from pathlib import Path

import pytest
from archives import varint
from common import at_places, make_mbtiles
from hostile import audited, in_time, listed, short, verdicts
from hypothesis import given, settings
from hypothesis import strategies as make
from mvt_tools import bounds, stores
from mvt_tools.stores import StoreError, sqlite
from mvt_tools.stores.waiting import asked_while
from mvt_tools.page.listing import key_of, spelled

TILE = b"\x1a\x04\x78\x02\x0a\x00"
COLUMNS = "zoom_level integer, tile_column integer, tile_row integer, tile_data blob"
TABLES = {
    "bare": [f"create table tiles ({COLUMNS})"],
    "indexed": [f"create table tiles ({COLUMNS})", "create index places on tiles (zoom_level, tile_column, tile_row)"],
    "unique": [f"create table tiles ({COLUMNS})", "create unique index places on tiles (zoom_level, tile_column, tile_row)"],
    "numbered": [f"create table tiles (tile_row_id integer primary key, {COLUMNS})"],
    "view": [f"create table held ({COLUMNS})", "create view tiles as select * from held"],
    "indexed view": [f"create table held ({COLUMNS})", "create index places on held (zoom_level, tile_column, tile_row)",
                     "create view tiles as select * from held"],
}  # fmt: skip
LONG = "x" * 5000
ODD = [
    (None, 1, 1), (1, None, 1), (1, 1, None), (None, None, None), (1.5, 0, 0), (1, 0.5, 0), (float("inf"), 0, 0), (0, -float("inf"), 0),
    (b"\x00\xff", 0, 0), (1, b"", 0), ("x", 1, 2), (LONG, 0, 0), (LONG, 0, 1), (1, LONG, 0), ("", "", ""), ("\x1b]0;owned\x07", 0, 0),
    (63, 0, -(2**63)), (62, 2**63 - 1, -(2**63)), (2**63 - 1, 0, 0), (-1, 0, 0), (-(2**63), 0, 0), (0, 1, 0), (1, 0, 30000), (1, -1, -1),
    (30, 2**40, -5), (64, 0, 0), (0, 0, 2**63 - 1),
]  # fmt: skip
GOOD = [(0, 0, 0), (1, 0, 0), (1, 1, 0), (1, 1, 1), (5, 17, 11), (30, 2**30 - 1, 0)]


@pytest.fixture(autouse=True)
def patience():
    with in_time():
        yield


@pytest.fixture
def memory():
    """Less than a gigabyte more than there was."""
    before = resource.getrlimit(resource.RLIMIT_AS)
    with open("/proc/self/statm") as file:
        pages = int(file.read().split()[0])
    resource.setrlimit(resource.RLIMIT_AS, (pages * resource.getpagesize() + (700 << 20), before[1]))
    yield
    resource.setrlimit(resource.RLIMIT_AS, before)


def made(path, statements, rows=()):
    """A file of such a schema, with rows of zoom, column, row and data."""
    with closing(sqlite3.connect(path)) as database, database:
        for statement in statements:
            database.execute(statement)
        table = (
            "tiles"
            if database.execute("select type from sqlite_master where name = 'tiles'").fetchone() == ("table",)
            else "held"
        )
        if rows:
            database.executemany(
                f"insert into {table} (zoom_level, tile_column, tile_row, tile_data) values (?, ?, ?, ?)", rows
            )
    return path


def numbered(places):
    """A row for each place, whose data tells which."""
    return [(*place, b"row %d" % number) for number, place in enumerate(places)]


def view_of(select, before=()):
    return [*before, f"create view tiles as {select}"]


ENDLESS = "with recursive c(x) as (select 1 union all select x + 1 from c) select x as zoom_level, x as tile_column, x as tile_row, x'00' as tile_data from c"
FIRST = f"select 0 as zoom_level, 0 as tile_column, 0 as tile_row, x'{TILE.hex()}' as tile_data union all"

# ---- rows whose places are none


@pytest.mark.parametrize("kind", TABLES)
def test_each_row_is_told_once_whatever_its_place(kind, tmp_path):
    rows = numbered([*GOOD[:3], *ODD, *GOOD[3:]])
    path = made(tmp_path / "a.mbtiles", TABLES[kind], rows)
    store = stores.opened(str(path))
    assert store.state().tiles == len(rows)
    wanted = sorted(data for *_, data in rows)
    for size in (1, 4, 1000):
        store.state()
        assert sorted(content for part in store.ranges(size) for _, content in store.tiles(part)) == wanted
    found = listed(path)
    assert sorted(content for *_, content in found) == wanted
    assert len({key for key, *_ in found}) == len(rows)
    for key, _, content in found:
        assert key_of(spelled(key)) == key
        assert store.held(key) == content
        assert next(store.since(key))[2] == content
    for z, x, row in GOOD:
        key = store.find(z, x, (1 << z) - 1 - row)
        assert (
            key is not None
            and store.held(key) == dict(zip([*GOOD[:3], *ODD, *GOOD[3:]], (data for *_, data in rows)))[z, x, row]
        )


@pytest.mark.parametrize("kind", TABLES)
def test_rows_have_places_or_names_that_the_table_takes(kind, tmp_path):
    path = made(tmp_path / "a.mbtiles", TABLES[kind], [(*place, TILE) for place in [*GOOD, *ODD]])
    rows = audited(path)
    assert len(rows) == len(GOOD) + len(ODD)
    for row in rows:
        assert row.verdict == "accepted"
        assert (row.z is None) == (row.x is None) == (row.y is None)
        assert row.z is None or all(-(2**63) <= each < 2**63 for each in row[:3])
        assert row.z is not None or (row.name and len(row.name) < 400)
    names = {row.name: row[:3] for row in rows}
    assert names["0/1/0"] == (0, 1, 0)
    assert names["1/0/-29999"] == (1, 0, -29999)
    assert names[f"63/0/{-2**63}"] == (None, None, None)
    assert names["None/1/1"] == names["1.5/0/0"] == names["Inf/0/0"] == (None, None, None)


@pytest.mark.parametrize("kind", TABLES)
def test_rows_at_one_place_are_all_told(kind, tmp_path):
    places = [(1, 0, 0), (1, 0, 0), (1, 0, 0), (2, 0, 0)] if kind != "unique" else [(1, 0, 0), (2, 0, 0)]
    path = made(tmp_path / "a.mbtiles", TABLES[kind], numbered(places))
    assert [content for *_, content in listed(path)] == [b"row %d" % number for number in range(len(places))]
    store = stores.opened(str(path))
    for size in (1, 2, 3):
        store.state()
        assert len([each for part in store.ranges(size) for each in store.tiles(part)]) == len(places)


def test_a_part_goes_on_behind_an_odd_row(tmp_path):
    rows = [(*place, TILE) for place in [(63, 0, -(2**63)), *((9, x, y) for x in range(50) for y in range(60))]]
    found = audited(made(tmp_path / "a.mbtiles", TABLES["bare"], rows), size=50_000, most=5000)
    assert len(found) == 3001 and {row.verdict for row in found} == {"accepted"}


@pytest.mark.parametrize("named", ["rowid", "_rowid_", "oid", "ROWID", "rowid text, _rowid_", "rowid, oid, _rowid_"])
def test_columns_with_the_name_of_a_row_number(named, tmp_path):
    path = made(tmp_path / "a.mbtiles", [f"create table tiles ({named} text, {COLUMNS})"], numbered(GOOD))
    assert len(audited(path)) == len(listed(path)) == len(GOOD)
    store = stores.opened(str(path))
    assert [store.held(key) for key, *_ in listed(path)] == [content for *_, content in listed(path)]


@pytest.mark.parametrize("number", [-(2**63), 2**63 - 1, 0, -5])
def test_row_numbers_at_the_ends(number, tmp_path):
    path = made(tmp_path / "a.mbtiles", TABLES["bare"], numbered(GOOD[:1]))
    with closing(sqlite3.connect(path)) as database, database:
        database.execute("update tiles set rowid = ?", (number,))
    assert len(audited(path)) == 1
    assert [key for key, *_ in listed(path)] == [(number,)]


@pytest.mark.parametrize("data", [None, 5, 1.5, "text", "é", "", b""])
def test_data_of_other_types(data, tmp_path):
    path = made(tmp_path / "a.mbtiles", TABLES["bare"], [(0, 0, 0, data)])
    [(_, _, content)] = listed(path)
    assert content == (b"" if data is None else data if isinstance(data, bytes) else str(data).encode())


def test_a_text_that_is_no_utf8(tmp_path):
    path = made(tmp_path / "a.mbtiles", TABLES["bare"], numbered(GOOD))
    with closing(sqlite3.connect(path)) as database, database:
        database.execute("insert into tiles values (cast(x'ff' as text), 0, 0, cast(x'1a00ff' as text))")
    found = {str(address): content for _, address, content in listed(path)}
    assert found["\\xff/0/0"] == b"\x1a\x00\xff" and len(found) == len(GOOD) + 1


@pytest.mark.parametrize(
    "key",
    [
        (),
        (1,),
        (1, 2),
        (1, 2, 3, -1),
        (1, 2, 3, 4, 5),
        ("", -1),
        ("",),
        ("", "x"),
        ("x", 0, 0),
        (2**63, 0, 0),
        (0, 0, 2**70),
        (None, 0, 0),
    ],
    ids=short,
)
def test_a_key_that_is_none(key, tmp_path):
    store = stores.opened(str(made(tmp_path / "a.mbtiles", TABLES["indexed"], numbered(GOOD))))
    for ask in (store.held, lambda key: list(store.since(key))):
        with pytest.raises(ValueError):
            ask(key)


_VALUES = (
    make.none()
    | make.integers(-(2**63), 2**63 - 1)
    | make.integers(-1, 3)
    | make.floats()
    | make.text(max_size=3)
    | make.binary(max_size=3)
)


@settings(max_examples=200, deadline=None)
@given(
    make.lists(make.tuples(_VALUES, _VALUES, _VALUES, _VALUES), min_size=1, max_size=12),
    make.sampled_from(["bare", "indexed", "view"]),
    make.integers(1, 5),
)
def test_any_rows_are_told_once(rows, kind, size):
    with tempfile.TemporaryDirectory() as room:
        path = made(Path(room, "a.mbtiles"), TABLES[kind], rows)
        assert len(audited(path, size)) == len(rows)
        found = listed(path)
        assert len(found) == len({key for key, *_ in found}) == len(rows)


# ---- what never ends


NEVER = {
    "recursion": view_of(ENDLESS),
    "recursion without a row": view_of(f"select * from ({ENDLESS}) where zoom_level < 0"),
    "behind a row": view_of(f"{FIRST} select * from ({ENDLESS}) where zoom_level < 0"),
    "a table with itself": view_of(
        "select a.x as zoom_level, b.x as tile_column, c.x as tile_row, x'00' as tile_data from t a, t b, t c, t d, t e, t f where a.x + b.x + c.x + d.x + e.x + f.x < 0",
        ["create table t (x)", "insert into t with recursive c(x) as (select 1 union all select x + 1 from c limit 3000) select x from c"],
    ),
    "columns": [f"create table held ({COLUMNS})", "insert into held values (0, 0, 0, x'1a00')",
                f"create view tiles as select zoom_level, tile_column, tile_row, (select max(zoom_level) from ({ENDLESS})) as tile_data from held"],
    "metadata": [f"create table tiles ({COLUMNS})", "insert into tiles values (0, 0, 0, x'1a00')",
                 f"create view metadata as select zoom_level as name, tile_data as value from ({ENDLESS}) where zoom_level < 0"],
}  # fmt: skip


@pytest.mark.parametrize("kind", NEVER)
def test_what_never_ends_is_told_within_its_time(kind, tmp_path, monkeypatch):
    monkeypatch.setattr(bounds, "ROW_SECONDS", 0.5)
    path = made(tmp_path / "a.mbtiles", NEVER[kind])
    for ask in (audited, lambda path: listed(path, most=5)):
        try:
            found = ask(path)
        except StoreError as why:
            assert "no answer within" in str(why)
        else:
            assert found and len(found) <= 5


@pytest.mark.parametrize("kind", NEVER)
def test_a_signal_comes_through(kind, tmp_path):
    class Ended(KeyboardInterrupt):
        pass

    def end(*_):
        raise Ended

    path = made(tmp_path / "a.mbtiles", NEVER[kind])
    held = signal.signal(signal.SIGALRM, end)
    signal.setitimer(signal.ITIMER_REAL, 1)
    try:
        with pytest.raises(KeyboardInterrupt):
            while True:
                audited(path)
                listed(path, most=5)
    finally:
        signal.setitimer(signal.ITIMER_REAL, 0)
        signal.signal(signal.SIGALRM, held)


def test_a_signal_while_a_question_is_prepared(tmp_path, monkeypatch):
    """SQLite drops what is raised within what it asks whether a name is allowed."""
    path = made(tmp_path / "a.mbtiles", TABLES["bare"], numbered(GOOD))

    def end(*_):
        raise KeyboardInterrupt

    monkeypatch.setattr(sqlite.Watched, "_allowed", end)
    with pytest.raises(KeyboardInterrupt):
        audited(path)


def test_a_question_that_is_given_up_ends(tmp_path):
    path = made(tmp_path / "a.mbtiles", NEVER["behind a row"])
    ends = time.monotonic() + 1

    def alive():
        if time.monotonic() > ends:
            raise ConnectionAbortedError("given up")

    store = stores.opened(str(path))
    store.check()
    with asked_while(alive), pytest.raises(ConnectionAbortedError):
        list(store.since(None))


@pytest.mark.parametrize("call", ["instr(zeroblob(60000000), zeroblob(30000000))", "like('%a%a%a%a%a%a%a%a%b', x)", "randomblob(900000000)",
                                  "replace(hex(zeroblob(60000000)), '0', '00')", "printf('%900000000d', 1)", "json_extract('[]', '$')", "glob('*a', x)",
                                  "load_extension('/tmp/x')", "writefile('/tmp/x', '')"])  # fmt: skip
def test_functions_that_take_for_ever_are_not_called(call, tmp_path):
    path = tmp_path / "a.mbtiles"
    made(path, [f"create table held (x, {COLUMNS})", "insert into held values ('a', 0, 0, 0, x'00')"])
    with closing(sqlite3.connect(path)) as database, database:
        database.execute("pragma writable_schema = on")
        text = f"create view tiles as select zoom_level, tile_column, tile_row, {call} as tile_data from held"
        database.execute("insert into sqlite_master values ('view', 'tiles', 'tiles', 0, ?)", (text,))
    for ask in (audited, listed):
        with pytest.raises(StoreError, match="not authorized|no such function|unsafe use"):
            ask(path)


def test_views_of_views_without_number_are_refused(tmp_path):
    statements = [f"create table held ({COLUMNS})", "create view v0 as select * from held"]
    statements += [
        f"create view v{number} as select * from v{number - 1} union all select * from v{number - 1}"
        for number in range(1, 20)
    ]
    path = made(tmp_path / "a.mbtiles", [*statements, "create view tiles as select * from v19"])
    with pytest.raises(StoreError):
        audited(path)


# ---- what takes memory


# A store that makes a gigabyte of nothing is refused, or the row is unread; no machine has to have the memory.
def rows_or_a_line(path):
    try:
        return audited(path), listed(path)
    except StoreError as why:
        assert "too big" in str(why)
        return [], []


@pytest.mark.parametrize(
    "size", ["68200000", "900000000", "2000000000", "68200000 + held.zoom_level", "900000000 + held.zoom_level"]
)
def test_data_that_a_view_makes_is_not_made(size, tmp_path, memory):
    before = [f"create table held ({COLUMNS})", "insert into held values (1, 0, 0, null)"]
    path = made(tmp_path / "a.mbtiles", view_of(f"{FIRST} select 1, 0, 0, zeroblob({size}) from held", before))
    rows, found = rows_or_a_line(path)
    assert len(rows) == len(found)
    assert verdicts(rows) in (
        {},
        {"0/0/0": "accepted", "1/0/1": "unread"},
        {"0/0/0": "accepted", "the tiles behind": "unread"},
    )


@pytest.mark.parametrize(
    "what",
    ["zeroblob(900000000)", "cast(zeroblob(400000000 + held.zoom_level) as text)", "cast(zeroblob(60000000) as text)"],
)
@pytest.mark.parametrize("column", range(3))
def test_a_place_of_a_gigabyte_is_no_more_than_a_name(what, column, tmp_path, memory):
    values = [what if each == column else "0" for each in range(3)]
    before = [f"create table held ({COLUMNS})", "insert into held values (1, 0, 0, null)"]
    rows, found = rows_or_a_line(
        made(tmp_path / "a.mbtiles", view_of(f"{FIRST} select {', '.join(values)}, x'1a00' from held", before))
    )
    assert all(len(row.name or "") < 500 for row in rows)
    assert len(rows) <= 3 and len(found) <= 3


@pytest.mark.parametrize("size", [66 << 20, 100 << 20])
def test_a_large_tile_of_a_table_is_too_large(size, tmp_path):
    head = TILE + b"\x7a" + varint(size - 11)
    path = made(tmp_path / "a.mbtiles", TABLES["indexed"], [(0, 0, 0, head.ljust(size, b"\0")), (1, 0, 0, TILE)])
    rows = audited(path)
    assert [(row.verdict, row.cause_name) for row in rows] == [("refused", "TooLarge"), ("accepted", None)]
    assert len(listed(path)) == 2


# ---- what stands beside the file


def beside(folder):
    return {path.name: hashlib.sha256(path.read_bytes()).hexdigest() for path in folder.iterdir()}


@pytest.fixture
def logged(tmp_path):
    """A file that is written by a log, and the folder for what stands beside it."""
    room = tmp_path / "room"
    room.mkdir()
    path = make_mbtiles(room / "a.mbtiles", at_places([TILE] * 4))
    with closing(sqlite3.connect(path, isolation_level=None)) as database:
        database.execute("pragma journal_mode = wal")
    return path


def test_nothing_appears_beside_a_file_that_wants_a_log(logged):
    before = beside(logged.parent)
    assert len(audited(logged)) == len(listed(logged)) == 4
    assert beside(logged.parent) == before and list(before) == ["a.mbtiles"]


def test_a_log_that_stands_there_is_read_and_left(logged, tmp_path):
    with closing(sqlite3.connect(logged, isolation_level=None)) as database:
        database.execute("insert into tiles values (7, 0, 0, x'1a00')")
        copied = tmp_path / "copied"
        copied.mkdir()
        for end in ("", "-wal"):
            (copied / f"a.mbtiles{end}").write_bytes(Path(f"{logged}{end}").read_bytes())
        # With a writer there, also where its log is empty.
        assert len(audited(logged)) == 5
        database.execute("pragma wal_checkpoint(truncate)")
        assert len(audited(logged)) == len(listed(logged)) == 5
    before = beside(copied)
    assert len(audited(copied / "a.mbtiles")) == len(listed(copied / "a.mbtiles")) == 5
    assert beside(copied) == before and len(before) == 2


@pytest.mark.parametrize("end", ["-wal", "-journal", "-shm"])
def test_a_pipe_beside_the_file_is_not_waited_for(end, logged):
    os.mkfifo(f"{logged}{end}")
    for ask in (audited, listed):
        with pytest.raises(StoreError, match="it is a pipe, and no file"):
            ask(logged)


def test_a_file_is_only_read(tmp_path):
    path = made(tmp_path / "a.mbtiles", TABLES["bare"], numbered(GOOD))
    before = beside(tmp_path)
    assert len(audited(path)) == len(listed(path)) == len(GOOD)
    assert beside(tmp_path) == before


# ---- damaged files, and what is no MBTiles


def test_words_of_a_schema_are_spelled(tmp_path):
    path = made(tmp_path / "a.mbtiles", TABLES["bare"], numbered(GOOD))
    with closing(sqlite3.connect(path)) as database, database:
        database.execute("pragma writable_schema = on")
        database.execute(
            "update sqlite_master set sql = 'create nothing', name = char(27) || ']0;owned' || char(7) where name = 'tiles'"
        )
    with pytest.raises(StoreError) as why:
        audited(path)
    assert str(why.value).isprintable()


@pytest.mark.parametrize("form", ["png", "\x1b[2J", "x" * 100_000, 5, None, b"\x00"], ids=short)
def test_another_format_is_refused_in_a_line(form, tmp_path):
    path = made(tmp_path / "a.mbtiles", [*TABLES["bare"], "create table metadata (name, value)"], numbered(GOOD))
    with closing(sqlite3.connect(path)) as database, database:
        database.execute("insert into metadata values ('format', ?)", (form,))
    with pytest.raises(StoreError) as why:
        audited(path)
    assert str(why.value).isprintable() and len(str(why.value)) < 300


@pytest.mark.parametrize("statement", ["create virtual table tiles using fts5(zoom_level, tile_column, tile_row, tile_data)", "create table tiles (x)",
                                       "create view tiles as select * from nowhere", "create view tiles as select * from tiles", "create table x (y)"])  # fmt: skip
def test_what_is_no_table_of_tiles(statement, tmp_path):
    with pytest.raises(StoreError) as why:
        audited(made(tmp_path / "a.mbtiles", [statement]))
    assert str(why.value).isprintable()


def test_each_byte_of_a_small_file_may_be_changed(tmp_path):
    whole = made(tmp_path / "a.mbtiles", ["pragma page_size = 512", *TABLES["indexed"]], numbered(GOOD)).read_bytes()
    path = tmp_path / "b.mbtiles"
    for at, put in itertools.product(range(0, len(whole), 5), (0, 0xFF)):
        path.write_bytes(whole[:at] + bytes([put]) + whole[at + 1 :])
        for ask in (audited, lambda path: listed(path, most=20)):
            try:
                ask(path)
            except (StoreError, OSError) as why:
                assert "\n" not in str(why)


# ---- what a file says of itself

METADATA = ["create table metadata (name, value)"]
_VALUES = (
    make.none() | make.integers(-(2**63), 2**63 - 1) | make.floats() | make.binary(max_size=9) | make.text(make.characters(blacklist_categories=["Cs"]), max_size=9)
    | make.sampled_from(["9e999", "1e400", "9" * 400, "[" * 100_000, '{"vector_layers": [1e999]}', "1,2,3," + "9" * 400])
)  # fmt: skip
_NAMES = make.sampled_from(["minzoom", "maxzoom", "bounds", "json", "format"]) | _VALUES


def with_metadata(path, rows):
    made(path, [*TABLES["bare"], *METADATA], numbered(GOOD))
    with closing(sqlite3.connect(path)) as database, database:
        database.executemany("insert into metadata values (?, ?)", rows)
    return stores.opened(str(path))


@settings(max_examples=100, deadline=None)
@given(make.lists(make.tuples(_NAMES, _VALUES), max_size=6))
def test_any_metadata_are_read(rows):
    with tempfile.TemporaryDirectory() as room:
        store = with_metadata(Path(room, "a.mbtiles"), rows)
        assert set(store.metadata()) <= {"minzoom", "maxzoom", "bounds", "json"}
        # A number that is none SQLite holds as null.
        assert len(store.named()) == sum(None not in row and not any(each != each for each in row) for row in rows)


BOMBS = {
    "large rows": "with recursive c(x) as (select 1 union all select x + 1 from c limit 1000000) select x, zeroblob(16000000) from c",
    "a large row": "select 'name', zeroblob(17000000)",
    "many rows": "with recursive c(x) as (select 1 union all select x + 1 from c limit 1000000) select x, x from c",
    "endless": "with recursive c(x) as (select 1 union all select x + 1 from c) select x, x from c",
}


@pytest.mark.parametrize("bomb", BOMBS)
def test_more_metadata_than_a_copy_takes_are_told(bomb, tmp_path, memory):
    path = made(
        tmp_path / "a.mbtiles",
        [*TABLES["bare"], f"create view metadata (name, value) as {BOMBS[bomb]}"],
        numbered(GOOD),
    )
    with pytest.raises(StoreError, match="its metadata are more than 8,388,608 bytes, or 10,000 rows"):
        stores.opened(str(path)).named()


def test_ten_thousand_rows_of_metadata_are_read(tmp_path):
    rows = [(f"name {number}", f"value {number}") for number in range(10_000)]
    assert with_metadata(tmp_path / "a.mbtiles", rows).named() == rows
