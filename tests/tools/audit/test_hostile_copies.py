"""Mended copies of stores that others made, and beside what others wrote: nothing of anybody else's is given away, overwritten or
believed, and a few bytes make no many."""

import gzip
import json
import os
import resource
import shutil
import signal
import sqlite3
import stat
import tempfile
import threading
from contextlib import closing, contextmanager
from pathlib import Path

import archives
import pytest
from common import at_places, audit, example_tiles, files, held, make_mbtiles, make_tree, start
from hostile import in_time
from mvt_tools import bounds, stores
from mvt_tools.audit import engine, mending
from mvt_tools.audit.copies import copy_of
from mvt_tools.audit.parts import Part
from mvt_tools.audit.results import Results, ResultsError
from processes import below, until
from watching import MB, Watched, on_disk
from wire import varint

EXAMPLES = example_tiles()
BROKEN, GOOD = EXAMPLES["20-ZeroSegment"], EXAMPLES["gdal"]
SECRET = b"root:$6$secret:19000:0:99999:7:::\n"


def one_line(error, status=None):
    assert error.startswith("mvt-audit: ") and error.count("\n") == 1, error
    assert "a defect" not in error and "Traceback" not in error, error
    return error


def mended(store, new, *words, status=0, **how):
    """A copy's figures."""
    got, out, error = audit(store, "--mend", new, "--json", *words, **how)
    assert (got, error) == (status, "")
    assert not Path(f"{new}.part").exists()
    return json.loads(out)["mended"]


def refused(store, new, *words, status=2, **how):
    """A copy that isn't made: the line that says why."""
    got, out, error = audit(store, "--mend", new, *words, **how)
    assert (got, out) == (status, ""), error
    return one_line(error)


# ---- runs of archives


def one_run(path, run, tile=GOOD, addressed=None):
    """An archive of one entry, which says that its tile stands at so many places."""
    content = archives.directory([(0, run, 0, len(tile))])
    sections = [127, len(content), 127 + len(content), 2, 127, 0, 129 + len(content), len(tile)]
    counts = (run if addressed is None else addressed, 1, 1)
    head = archives.HEADER.pack(b"PMTiles", 3, *sections, *counts, 1, 1, 1, 1, 0, 31, *[0] * 6)
    path.write_bytes(head[:127] + content + b"{}" + tile)
    return path


@pytest.mark.parametrize("tile", [GOOD, BROKEN], ids=["good", "broken"])
@pytest.mark.parametrize("run", [1 << 40, 1 << 61])
@pytest.mark.parametrize("addressed", [None, 0], ids=["said", "not said"])
def test_a_run_of_many_places_is_refused_with_less_than_200_MB_of_memory(tmp_path, tile, run, addressed):
    store = one_run(tmp_path / "a.pmtiles", run, tile, addressed)
    with in_time():
        found = Watched(store, "--mend", tmp_path / "new.mbtiles")
    assert found.status == 2 and "no copy is made of" in one_line(found.error)
    assert found.client < 200 * MB
    assert not (tmp_path / "new.mbtiles").exists() and not (tmp_path / "new.mbtiles.part").exists()


def test_a_run_of_more_places_than_the_header_says_is_told(tmp_path):
    store = one_run(tmp_path / "a.pmtiles", 1 << 40, GOOD, 7)
    assert "more tiles than the 7 that it says" in refused(store, tmp_path / "new.mbtiles", status=3)
    assert on_disk(tmp_path) < 10 * MB


def test_a_content_of_a_run_is_written_once(tmp_path):
    tile = bytes.fromhex("0a") + varint(MB) + os.urandom(MB)  # an unknown field
    store = one_run(tmp_path / "a.pmtiles", 341, tile)
    new = tmp_path / "new.mbtiles"
    found = mended(store, new)
    assert found["copied"] == 341
    assert len(tile) < on_disk(new) < 2 * len(tile)
    assert set(held(new)[0].values()) == {tile} and len(held(new)[0]) == 341


def test_equal_contents_at_many_entries_are_written_once(tmp_path):
    tile = bytes.fromhex("0a") + varint(MB) + os.urandom(MB)
    store = make_mbtiles(tmp_path / "a.mbtiles", at_places([BROKEN, GOOD]))
    with closing(sqlite3.connect(store)) as database, database:
        database.execute("drop table tiles")
        database.execute("create table large (data blob)")
        database.execute("insert into large values (?)", (tile,))
        database.execute("create table at (zoom_level, tile_column, tile_row)")
        database.executemany("insert into at values (8, ?, 7)", ((x,) for x in range(200)))
        database.execute("create view tiles as select zoom_level, tile_column, tile_row, data tile_data from at, large")
    mended(store, tmp_path / "new.mbtiles")
    assert on_disk(tmp_path / "new.mbtiles") < 2 * len(tile)


def test_a_run_goes_on_where_it_was(tmp_path):
    """Each place of a run once, whatever was written of it before."""
    store = stores.opened(str(one_run(tmp_path / "a.pmtiles", 120_000, BROKEN)))
    state = store.state()
    with closing(Results(tmp_path / "audit")) as results:
        for _ in range(2):
            with closing(copy_of(results, store, state, tmp_path / "new.mbtiles")) as copy:
                next(copy.steps(lambda tiles: [content for _, content in tiles]))
                assert copy.told["copied"] in (50_000, 100_000)
    found = mended(store.path, tmp_path / "new.mbtiles", "--into", tmp_path / "audit", status=1)
    assert (found["copied"], found["left_out"], found["tiles"]) == (120_000, 0, {"ZeroSegment": 20_000})
    assert len(held(tmp_path / "new.mbtiles")[0]) == 120_000


def test_a_view_that_makes_tiles_fills_no_disk(tmp_path):
    """A file of some kilobytes that has 100,000 tiles of a megabyte each, none of them equal to another."""
    store = make_mbtiles(tmp_path / "a.mbtiles", at_places([BROKEN]))
    with closing(sqlite3.connect(store)) as database, database:
        database.execute("drop table tiles")
        database.execute("create table n (n integer)")
        database.executemany("insert into n values (?)", ((n,) for n in range(300)))
        database.execute(
            "create view tiles as select 20 zoom_level, n tile_column, 5 tile_row,"
            " cast(zeroblob(1000000) || n as blob) tile_data from n"
        )
    error = refused(store, tmp_path / "new.mbtiles", status=3)
    assert "a copy of it has more than" in error
    assert on_disk(tmp_path) < 10 * MB and not (tmp_path / "new.mbtiles.part").exists()


# ---- files


@pytest.fixture
def tree(tmp_path):
    return make_tree(tmp_path / "store", at_places([BROKEN, GOOD]))


def test_what_links_lead_to_is_not_copied(tree, tmp_path):
    (tmp_path / "secret").write_bytes(SECRET)
    (tmp_path / "elsewhere").mkdir()
    (tmp_path / "elsewhere" / "7.mvt").write_bytes(SECRET)
    (tree / "5" / "7.mvt").symlink_to(tmp_path / "secret")  # no tile
    (tree / "5" / "0" / "9.mvt").symlink_to(tmp_path / "secret")
    (tree / "5" / "0" / "8.mvt").symlink_to("0.mvt")
    (tree / "5" / "3").symlink_to(tmp_path / "elsewhere")
    (tree / "metadata.json").symlink_to(tmp_path / "secret")
    got, out, error = audit(tree, "--mend", tmp_path / "new")
    assert (got, error) == (3, "")
    assert "; 2 couldn't be copied, 2 of them links that lead out of the store\n" in out
    assert "metadata aren't in the copy: a link that leads out of the store\n" in out
    assert set(files(tmp_path / "new")) == {"5/0/0.mvt", "5/1/0.mvt", "5/0/8.mvt"}
    assert SECRET not in files(tmp_path / "new").values()
    assert not any(path.is_symlink() for path in (tmp_path / "new").rglob("*"))


def test_holes_in_files_do_not_become_bytes(tree, tmp_path):
    for name, size in (("5/0/5.mvt", 3 << 30), ("5/0/6.mvt", 60 << 20), ("metadata.json", 3 << 30)):
        os.truncate(os.open(tree / name, os.O_CREAT | os.O_WRONLY), size)
    found = Watched(tree, "--mend", tmp_path / "new")
    assert (found.status, found.error) == (3, "")
    assert "; 1 couldn't be copied\n" in found.out
    assert "metadata aren't in the copy: more than 8,388,608 bytes\n" in found.out
    assert on_disk(tmp_path / "new") < MB and found.client < 500 * MB
    assert (tmp_path / "new" / "5" / "0" / "6.mvt").stat().st_size == 60 << 20


@pytest.mark.parametrize("mode", [0o600, 0o640, 0o444])
def test_copies_have_the_rights_of_the_store(tree, tmp_path, mode):
    mbtiles = make_mbtiles(tmp_path / "a.mbtiles", at_places([BROKEN, GOOD]))
    (tree / "metadata.json").write_text("{}")
    for path in [mbtiles, *tree.rglob("*.*")]:
        path.chmod(mode)
    (tree / "5").chmod(0o750)
    tree.chmod(0o700)
    mended(mbtiles, tmp_path / "new.mbtiles")
    mended(tree, tmp_path / "new")

    def rights(path):
        return stat.S_IMODE(path.stat().st_mode)

    assert rights(tmp_path / "new.mbtiles") == mode
    assert {rights(path) for path in (tmp_path / "new").rglob("*.*")} == {mode}
    assert (rights(tmp_path / "new"), rights(tmp_path / "new" / "5")) == (0o700, 0o750)


# ---- metadata


def test_metadata_of_a_few_bytes_fill_no_disk(tmp_path):
    store = make_mbtiles(tmp_path / "a.mbtiles", at_places([BROKEN, GOOD]))
    with closing(sqlite3.connect(store)) as database, database:
        database.execute("alter table metadata rename to said")
        database.execute(
            "create view metadata as with recursive n(n) as (select 1 union all select n + 1 from n limit 1000000)"
            " select 'name' || n name, zeroblob(16000000) value from n union all select name, value from said"
        )
    with in_time():
        found = Watched(store, "--mend", tmp_path / "new.mbtiles")
    assert (found.status, found.error) == (0, "")
    assert (
        f"metadata aren't in the copy: {store}: its metadata are more than 8,388,608 bytes, or 10,000 rows\n"
        in found.out
    )
    assert held(tmp_path / "new.mbtiles")[1] == {"name": "a", "format": "pbf"}
    assert on_disk(tmp_path) < MB and found.client < 200 * MB


@pytest.mark.parametrize("piece", ["[],", '{"":0},', "[0],", '"ab",'])
def test_metadata_of_many_small_values_take_less_than_350_MB_of_the_client(tmp_path, piece):
    text = '{"more":[' + (piece * ((bounds.SAID - 20) // len(piece)))[:-1] + "]}"
    whole = archives.archive(at_places([BROKEN, GOOD]), internal=2)
    numbers, content = list(archives.HEADER.unpack(whole[:127])), gzip.compress(text.encode())
    numbers[4:6] = len(whole), len(content)
    (tmp_path / "a.pmtiles").write_bytes(archives.HEADER.pack(*numbers) + whole[127:] + content)
    found = Watched(tmp_path / "a.pmtiles", "--mend", tmp_path / "new.mbtiles")
    assert (found.status, found.error) == (0, "")
    assert found.client < 350 * MB and on_disk(tmp_path) < 50 * MB


def test_metadata_that_are_no_text_are_copied_as_they_are(tmp_path):
    store = make_mbtiles(tmp_path / "a.mbtiles", at_places([BROKEN, GOOD]))
    with closing(sqlite3.connect(store)) as database, database:
        database.execute(
            "insert into metadata values ('name', cast(x'66fc72' as text)), (x'00ff', 7), ('a', null), ('b', 2.5)"
        )
    mended(store, tmp_path / "new.mbtiles")
    said = "select typeof(name), hex(name), typeof(value), hex(value) from metadata where value is not null"
    found = [_asked(path, said) for path in (store, tmp_path / "new.mbtiles")]
    assert found[0] == found[1] and len(found[0]) == 4


def _asked(path, query):
    with closing(sqlite3.connect(path)) as database:
        return database.execute(query).fetchall()


@pytest.mark.parametrize("content", [b"{", b"[]", b"\xff", b"[" * 100_000, b'{"minzoom": ' + b"9" * 5000 + b"}"])
def test_an_archive_whose_metadata_cannot_be_read_is_mended(tmp_path, content):
    store = tmp_path / "a.pmtiles"
    store.write_bytes(archives.with_metadata(at_places([BROKEN, GOOD]), content))
    got, out, error = audit(store, "--mend", tmp_path / "new.mbtiles")
    assert (got, error) == (0, "")
    assert "metadata: its description can't be read: " in out and "metadata aren't in the copy: " in out
    assert held(tmp_path / "new.mbtiles")[1] == {"name": "a", "format": "pbf"}


def test_what_an_archive_says_with_odd_letters_and_numbers_is_copied(tmp_path):
    store = tmp_path / "a.pmtiles"
    said = b'{"name": "\\ud800", "big": 1' + b"0" * 400 + b', "far": 1e400, "bounds": [1e400, null]}'
    store.write_bytes(archives.with_metadata(at_places([BROKEN, GOOD]), said))
    mended(store, tmp_path / "new.mbtiles")
    said = held(tmp_path / "new.mbtiles")[1]
    assert said["name"] == "?" and said["big"] == "1" + "0" * 400 and said["format"] == "pbf"


# ---- what stands where the copy is written


def a_database(path, made):
    with closing(sqlite3.connect(path)) as database, database:
        database.execute(f"create {made}")


PLANTED = {
    "a view that never ends": lambda part: a_database(
        part,
        "view copying as with recursive n(n) as (select 1 union all select n"
        " from n) select n digest, n key, n told from n where n > 1",
    ),
    "a database": lambda part: a_database(part, "table copying (digest text, key text, told text)"),
    "a file": lambda part: part.write_bytes(b"something"),
    "an empty file": lambda part: part.write_bytes(b""),
    "a pipe": os.mkfifo,
    "a link to nothing": lambda part: part.symlink_to("nothing"),
    "a link to an empty folder": lambda part: part.symlink_to(_folder(part.with_name("empty"))),
    "a link to itself": lambda part: part.symlink_to(part),
    "a folder": lambda part: (_folder(part) / "mine").write_text("mine"),
    "a mark that is no text": lambda part: (_folder(part) / "mark").write_bytes(b"\xff" * 5000),
    "a mark of a terabyte": lambda part: os.truncate(
        os.open(_folder(part) / "mark", os.O_CREAT | os.O_WRONLY), 1 << 40
    ),
    "a mark that is a link": lambda part: (_folder(part) / "mark").symlink_to("/dev/zero"),
    "a mark that is a pipe": lambda part: os.mkfifo(_folder(part) / "mark"),
    "a mark that is a folder": lambda part: (_folder(part) / "mark").mkdir(),
    "another secret": lambda part: (_folder(part) / "mark").write_text("0" * 32 + " " + "0" * 64),
}


def _folder(path):
    path.mkdir()
    return path


@pytest.mark.parametrize("kind", ["folder", "mbtiles"])
@pytest.mark.parametrize("name", PLANTED)
def test_what_stands_there_is_not_believed(tree, tmp_path, name, kind):
    store = tree if kind == "folder" else make_mbtiles(tmp_path / "a.mbtiles", at_places([BROKEN, GOOD]))
    part = tmp_path / "new.part"
    PLANTED[name](part)
    before = sorted(path.name for path in tmp_path.iterdir())
    with in_time():
        error = refused(store, tmp_path / "new")
    assert "isn't a copy that mvt-audit began with these results; move it away" in error
    assert sorted(path.name for path in tmp_path.iterdir()) == sorted([*before, "new.audit"])


def test_an_empty_folder_is_taken_over(tree, tmp_path):
    (tmp_path / "new.part").mkdir()
    mended(tree, tmp_path / "new")


def test_what_was_begun_and_is_damaged_is_begun_anew(tmp_path):
    store = make_mbtiles(tmp_path / "a.mbtiles", at_places([BROKEN, GOOD]))
    opened = stores.opened(str(store))
    state = opened.state()
    for damage in (
        "drop table copying",
        "update copying set key = 'x'",
        "update copying set key = '[1, 2]', told = '[]'",
        "update copying set key = '{}', told = '5'",
        "insert into copying select * from copying",
        "update copying set told = null",
        "update copying set key = '[\"x\", -1, 2.5, 7, 8, 9]'",
    ):
        shutil.rmtree(tmp_path / "audit", ignore_errors=True)
        with closing(Results(tmp_path / "audit")) as results:
            copy_of(results, opened, state, tmp_path / "new.mbtiles").close()
        with closing(sqlite3.connect(tmp_path / "new.mbtiles.part" / "copy")) as database, database:
            database.execute(damage)
        found = mended(store, tmp_path / "new.mbtiles", "--into", tmp_path / "audit")
        assert (found["copied"], found["tiles"]) == (2, {"ZeroSegment": 1}), damage
        (tmp_path / "new.mbtiles").unlink()


@contextmanager
def shared():
    """A folder that all may write in, as /tmp is."""
    with tempfile.TemporaryDirectory(dir="/var/tmp") as room:
        os.chmod(room, 0o1777)
        yield Path(room)


@pytest.mark.skipif(os.getuid() != 0, reason="only root can become somebody else")
@pytest.mark.parametrize("kind", ["folder", "mbtiles"])
def test_a_folder_of_another_user_is_not_written_in(tree, tmp_path, kind):
    store = tree if kind == "folder" else make_mbtiles(tmp_path / "a.mbtiles", at_places([BROKEN, GOOD]))
    victim = tmp_path / "victim"
    (victim / "0").mkdir(parents=True)
    (victim / "0" / "0.mvt").write_bytes(SECRET)
    with shared() as room:
        for planted in ("whole", "empty"):
            part = room / "new.part"
            part.mkdir()
            if planted == "whole":
                (part / "copy").mkdir()
                (part / "copy" / "5").symlink_to(victim)
                (part / "mark").write_text("0" * 32 + " " + stores.opened(str(store)).state().digest)
            os.chown(part, 65534, 65534)
            error = refused(store, room / "new", "--into", tmp_path / planted)
            assert "isn't a copy that mvt-audit began" in error
            shutil.rmtree(part)
    assert files(victim) == {"0/0.mvt": SECRET}


@pytest.mark.skipif(os.getuid() != 0, reason="only root can become somebody else")
def test_results_of_another_user_are_not_taken_for_those_of_the_copy(tree, tmp_path):
    with shared() as room:
        (room / "new.audit").mkdir()
        (room / "new.audit" / "report.html.unfinished").symlink_to(tmp_path / "victim")
        os.chown(room / "new.audit", 65534, 65534)
        assert "is another user's; name a folder with --into" in refused(tree, room / "new")
    assert not (tmp_path / "victim").exists()


def test_a_link_beside_the_report_is_not_followed(tree, tmp_path):
    (tmp_path / "audit").mkdir()
    (tmp_path / "victim").write_bytes(SECRET)
    for name in ("report.html", "report.html.new", "report.html.unfinished"):
        (tmp_path / "audit" / name).symlink_to(tmp_path / "victim")
    assert audit(tree, "--into", tmp_path / "audit")[0] == 1
    assert (tmp_path / "victim").read_bytes() == SECRET and not (tmp_path / "audit" / "report.html").is_symlink()


def test_what_appears_meanwhile_is_not_replaced(tree, tmp_path):
    """What was copied so far is gone on with: here, as it was."""
    mbtiles = make_mbtiles(tmp_path / "a.mbtiles", at_places([BROKEN, GOOD]))
    for store, name, status in ((tree, "new", 0), (mbtiles, "new.mbtiles", 1)):
        new, opened = tmp_path / name, stores.opened(str(store))
        for make in (lambda: new.write_bytes(SECRET), lambda: new.symlink_to("nothing"), new.mkdir):
            with closing(Results(tmp_path / "audit", anew=True)) as results:
                with closing(copy_of(results, opened, opened.state(), new)) as copy:
                    list(copy.steps(lambda tiles: [content for _, content in tiles]))
                    make()
                    before = new.lstat()
                    with pytest.raises(ResultsError, match="is there already"):
                        copy.end()
            assert new.lstat().st_ino == before.st_ino
            new.rmdir() if new.is_dir() else new.unlink()
        assert mended(store, new, "--into", tmp_path / "audit", "--anew", status=status)["copied"] == 2


# ---- two runs at once


@pytest.mark.parametrize("kind", ["folder", "mbtiles"])
def test_two_runs_to_one_copy(tmp_path, kind):
    """One of them makes it whole, and the other is told."""
    tiles = at_places([BROKEN, GOOD] * 1500, 9)
    make = make_tree if kind == "folder" else make_mbtiles
    first, second = (make(tmp_path / f"{name}.mbtiles", tiles) for name in ("one", "two"))
    runs = [
        start(store, "--into", tmp_path / f"of {store.name}", "--mend", tmp_path / "new") for store in (first, second)
    ]
    told = [(*run.communicate(timeout=300), run.returncode) for run in runs]
    assert sorted(status for *_, status in told) in ([0, 2], [0, 0]), told
    for _, error, status in told:
        if status:
            assert "another mvt-audit is at work here" in error or "is there already" in error
            one_line(error)
    assert len(files(tmp_path / "new") if kind == "folder" else held(tmp_path / "new")[0]) == len(tiles)
    assert not (tmp_path / "new.part").exists()


def test_a_copy_that_another_command_has(tree, tmp_path):
    (tmp_path / "other").mkdir()
    with closing(Part(tmp_path / "new", tmp_path / "other", "0" * 64)):
        assert "new.part: another mvt-audit is at work here" in refused(tree, tmp_path / "new")


# ---- full disks, signals and workers


def full(size):
    """As if the disk had so many bytes for a file."""
    return lambda: resource.setrlimit(resource.RLIMIT_FSIZE, (size, size))


@pytest.mark.parametrize("size", [50_000, 120_000])
def test_a_full_disk(tmp_path, size):
    large = GOOD + bytes.fromhex("0a") + varint(200_000) + os.urandom(200_000)
    store, new = make_mbtiles(tmp_path / "a.mbtiles", at_places([BROKEN, large])), tmp_path / "new.mbtiles"
    assert audit(store, "--into", tmp_path / "audit")[0] == 1
    got, out, error = audit(store, "--into", tmp_path / "audit", "--mend", new, preexec_fn=full(size))
    assert (got, out) == (3, "") and "a defect" not in error
    assert not new.exists()
    status, _, error = audit(store, "--into", tmp_path / "audit", "--mend", new)
    assert status == 0, error
    assert held(new)[0][5, 1, 0] == large


def test_a_small_file_system(tmp_path):
    room = tmp_path / "room"
    room.mkdir()
    large = GOOD + bytes.fromhex("0a") + varint(2 * MB) + os.urandom(2 * MB)
    tree = make_tree(tmp_path / "store", at_places([BROKEN, large, GOOD]))
    if os.system(f"mount -t tmpfs -o size=1m tmpfs {room} 2>/dev/null"):
        pytest.skip("no file system can be mounted here")
    try:
        error = refused(tree, room / "new", "--into", tmp_path / "audit", status=3).replace("all 3 tiles", "")
        assert "No space left on device" in error
        assert not (room / "new").exists()
        os.system(f"mount -o remount,size=20m {room}")
        assert audit(tree, "--into", tmp_path / "audit", "--mend", room / "new")[0] == 0
        assert len(files(room / "new")) == 3
    finally:
        os.system(f"umount -l {room}")


def never(store, content):
    signal.pause()


def dies(store, content):
    os._exit(1)


def test_ctrl_c_is_heard_while_a_worker_mends():
    def interrupted(*_):
        raise KeyboardInterrupt

    before = signal.signal(signal.SIGALRM, interrupted)
    try:
        with closing(
            mending.Menders(stores.opened(os.path.dirname(__file__)), lambda: engine.workers(1, None, never))
        ) as menders:
            threading.Timer(2, lambda: os.kill(os.getpid(), signal.SIGALRM)).start()
            with pytest.raises(KeyboardInterrupt):
                menders([b"a", b"b"])
            assert below(os.getpid())
        until(lambda: not [pid for pid in below(os.getpid()) if b"spawn_main" in _command(pid)])
    finally:
        signal.signal(signal.SIGALRM, before)


def _command(pid):
    try:
        return Path(f"/proc/{pid}/cmdline").read_bytes()
    except OSError:
        return b""


def test_a_tile_that_workers_end_over_stays():
    with closing(
        mending.Menders(stores.opened(os.path.dirname(__file__)), lambda: engine.workers(1, None, dies))
    ) as menders:
        assert menders([b"a"]) == {b"a": None}
