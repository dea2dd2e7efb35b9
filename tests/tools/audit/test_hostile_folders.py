"""Folders, lists and files of strangers: what is no file, what can't be listed, and names that aren't those of tiles."""

import json
import os
import socket
import stat
import tempfile
from pathlib import Path

import archives
import pytest
from common import at_places, make_mbtiles, make_tree
from hostile import audited, in_time, listed, short, verdicts
from hypothesis import given, settings
from hypothesis import strategies as make
from mvt_tools import stores
from mvt_tools.stores import StoreError, files
from mvt_tools.page.given import Given, GivenError

TILE = b"\x1a\x04\x78\x02\x0a\x00"
# What a name may lead to, beside a file.
OTHERS = ("fifo", "zero", "terminal", "folder", "socket")


@pytest.fixture(autouse=True)
def patience():
    with in_time():
        yield


def made(kind, path):
    """Something that is no file, at a path."""
    path.parent.mkdir(parents=True, exist_ok=True)
    if kind == "fifo":
        os.mkfifo(path)
    elif kind == "folder":
        path.mkdir()
    elif kind == "socket":
        with socket.socket(socket.AF_UNIX) as held:
            held.bind(str(path))
    else:
        path.symlink_to({"zero": "/dev/zero", "terminal": "/dev/tty"}[kind])
    return path


@pytest.mark.parametrize("kind", OTHERS)
def test_what_is_no_file_is_not_read(kind, tmp_path):
    with pytest.raises(OSError):
        files.read(str(made(kind, tmp_path / "a")))


def test_it_is_told_what_it_is(tmp_path):
    for kind, word in {"fifo": "a pipe", "zero": "a device", "folder": "a folder"}.items():
        with pytest.raises(OSError, match=f"it is {word}, and no file"):
            files.read(str(made(kind, tmp_path / kind)))


def test_a_file_is_closed_and_not_inherited(tmp_path):
    (tmp_path / "a").write_bytes(TILE)
    with files.opened(str(tmp_path / "a")) as file:
        assert stat.S_ISREG(os.fstat(file.fileno()).st_mode)
        assert not os.get_inheritable(file.fileno())
    assert file.closed


@pytest.mark.parametrize("kind", OTHERS)
def test_in_a_folder_it_is_an_unread_row(kind, tmp_path):
    tree = make_tree(tmp_path / "tree", {(1, 0, 0): TILE, (1, 1, 1): TILE})
    made(kind, tree / "1" / "0" / "1.mvt")
    wanted = {"1/0/0.mvt": "accepted", "1/0/1.mvt": "unread", "1/1/1.mvt": "accepted"}
    assert verdicts(audited(tree)) == wanted
    assert [str(address) for _, address, _ in listed(tree)] == list(wanted)


@pytest.mark.parametrize("kind", OTHERS)
def test_in_a_list_it_is_an_unread_row(kind, tmp_path):
    (tmp_path / "good.mvt").write_bytes(TILE)
    made(kind, tmp_path / "odd")
    (tmp_path / "list.txt").write_text("odd\ngood.mvt\n")
    assert verdicts(audited(tmp_path / "list.txt")) == {"odd": "unread", "good.mvt": "accepted"}
    assert [str(address) for _, address, _ in listed(tmp_path / "list.txt")] == ["odd", "good.mvt"]


@pytest.mark.parametrize("end", [".mbtiles", ".pmtiles", ".txt", ""])
@pytest.mark.parametrize("kind", ["fifo", "zero", "terminal", "socket"])
def test_as_a_store_it_is_refused_in_a_line(kind, end, tmp_path):
    path = made(kind, tmp_path / f"a{end}")
    with pytest.raises(StoreError) as why:
        stores.opened(str(path)).state()
    assert "\n" not in str(why.value)
    with pytest.raises(GivenError) as why:
        Given([str(path)])
    assert "\n" not in str(why.value)


def test_a_file_that_becomes_a_pipe_later_is_not_waited_for(tmp_path):
    path = tmp_path / "a.mvt"
    path.write_bytes(TILE)
    given = Given([str(path)])
    assert given.file(0) == TILE
    path.unlink()
    os.mkfifo(path)
    with pytest.raises(OSError):
        given.file(0)


@pytest.mark.parametrize("kind", ["mbtiles", "pmtiles", "txt"])
def test_a_store_that_becomes_a_pipe_later_is_not_waited_for(kind, tmp_path):
    path = tmp_path / f"a.{kind}"
    tiles = at_places([TILE] * 9)
    if kind == "mbtiles":
        make_mbtiles(path, tiles)
    elif kind == "pmtiles":
        path.write_bytes(archives.archive(tiles))
    else:
        make_tree(tmp_path, tiles)
        path.write_text("".join(f"{z}/{x}/{y}.mvt\n" for z, x, y in tiles))
    store = stores.opened(str(path))
    store.check()
    (key, *_), *_ = store.since(None)
    path.unlink()
    os.mkfifo(path)
    for ask in (store.check, lambda: store.held(key), store.state):
        with pytest.raises((OSError, StoreError)):
            ask()
    assert all(isinstance(content, Exception) for content in contents_of(store))


def contents_of(store):
    """What is listed of a store, or why nothing is."""
    try:
        return [content for *_, content in store.since(None)]
    except (OSError, StoreError) as why:
        return [why]


# ---- names of folders


def test_digits_are_those_of_ascii(tmp_path):
    tree = make_tree(tmp_path / "tree", {(3, 0, 0): TILE})
    for name in ("٣/0/0", "3/٠/0", "3/0/٠", "３/0/0", "²/0/0"):
        path = tree / f"{name}.mvt"
        path.parent.mkdir(parents=True, exist_ok=True)
        path.write_bytes(TILE)
    assert verdicts(audited(tree)) == {"3/0/0.mvt": "accepted"}
    assert [str(address) for _, address, _ in listed(tree)] == ["3/0/0.mvt"]
    assert files.address_of("٣/0/0.mvt")[:3] == (None, None, None)


def test_zeros_in_front_make_no_second_tile(tmp_path):
    tree = make_tree(tmp_path / "tree", {(1, 0, 0): TILE, (1, 1, 1): TILE, (10, 0, 0): TILE})
    for name in (
        "01/0/0",
        "1/00/0",
        "1/0/00",
        "05/0/0",
        "000001/0/0",
        "123456789012345678901234567890/0/0",
        "1/99999999999/0",
    ):
        path = tree / f"{name}.mvt"
        path.parent.mkdir(parents=True, exist_ok=True)
        path.write_bytes(TILE)
    wanted = ["1/0/0.mvt", "1/1/1.mvt", "10/0/0.mvt"]
    assert list(verdicts(audited(tree))) == wanted
    assert len(audited(tree)) == 3
    assert [str(address) for _, address, _ in listed(tree)] == wanted


@pytest.mark.parametrize("name", ["5", "5/3"])
@pytest.mark.parametrize("to", ["nothing", "itself"])
def test_a_link_that_leads_nowhere_is_an_unread_row(name, to, tmp_path):
    tree = make_tree(tmp_path / "tree", {(4, 0, 0): TILE, (5, 1, 0): TILE, (6, 0, 0): TILE})
    path = tree / name
    if name == "5":
        for each in (tree / "5" / "1" / "0.mvt", tree / "5" / "1", tree / "5"):
            each.unlink() if each.is_file() else each.rmdir()
    path.symlink_to("nowhere" if to == "nothing" else path.name)
    rows = verdicts(audited(tree))
    assert rows == {
        "4/0/0.mvt": "accepted",
        name: "unread",
        "6/0/0.mvt": "accepted",
        **({"5/1/0.mvt": "accepted"} if name != "5" else {}),
    }
    assert sorted(str(address) for _, address, _ in listed(tree)) == sorted(rows)


def test_a_folder_that_may_not_be_listed_is_an_unread_row(tmp_path, monkeypatch):
    tree = make_tree(tmp_path / "tree", {(4, 0, 0): TILE, (5, 1, 0): TILE, (5, 2, 0): TILE, (6, 0, 0): TILE})
    closed, listdir, open_ = str(tree / "5" / "1"), os.listdir, os.open

    def refused(call):
        def ask(path, *words, **named):
            if str(path) == closed:
                raise PermissionError(13, "Permission denied", path)
            return call(path, *words, **named)

        return ask

    # root may list each folder
    monkeypatch.setattr(os, "listdir", refused(listdir))
    monkeypatch.setattr(os, "open", refused(open_))
    rows = audited(tree)
    assert verdicts(rows) == {
        "4/0/0.mvt": "accepted",
        "5/1": "unread",
        "5/2/0.mvt": "accepted",
        "6/0/0.mvt": "accepted",
    }
    assert [row.notes for row in rows if row.verdict == "unread"] == ["Permission denied"]
    found = listed(tree)
    assert [str(address) for _, address, _ in found] == list(verdicts(rows))
    with pytest.raises(OSError):
        stores.opened(str(tree)).held(found[1][0])


@pytest.mark.parametrize(
    "key",
    [(), (1, 2, 3), (-1,), (1, -1), (1, 2, 3, 4), (1, 2, 3, -1), ("..",), ("5", 0, 0, 0), (1, 2, 3, 0, 0)],
    ids=short,
)
def test_a_key_that_is_none_makes_no_path(key, tmp_path):
    tree = make_tree(tmp_path / "tree", {(4, 0, 0): TILE})
    for ask in (stores.opened(str(tree)).held, lambda key: list(stores.opened(str(tree)).since(key))):
        with pytest.raises(ValueError):
            ask(key)


def test_names_with_controls(tmp_path):
    tree = make_tree(tmp_path / "tree", {(1, 0, 0): TILE})
    for name in ("1\n", "\x1b]0;owned\x07", "1 "):
        (tree / name / "0").mkdir(parents=True)
        (tree / name / "0" / "0.mvt").write_bytes(TILE)
    (tree / "1" / "0" / "0\n.mvt").write_bytes(TILE)
    assert verdicts(audited(tree)) == {"1/0/0.mvt": "accepted"}


def test_a_place_beyond_its_zoom_is_a_row(tmp_path):
    tree = make_tree(
        tmp_path / "tree", {(0, 1, 0): TILE, (1, 0, 300): b"broken", (3, 99999, 0): TILE, (99, 0, 9999999999): TILE}
    )
    rows = {row.name: row[:3] for row in audited(tree)}
    assert (
        rows["0/1/0.mvt"] == (0, 1, 0) and rows["1/0/300.mvt"] == (1, 0, 300) and rows["3/99999/0.mvt"] == (3, 99999, 0)
    )
    assert len(listed(tree)) == len(rows) == 4


# ---- lists


def test_a_name_with_a_nul_is_an_unread_row(tmp_path):
    (tmp_path / "good.mvt").write_bytes(TILE)
    (tmp_path / "list.txt").write_bytes(b"a\0b\ngood.mvt\n\0\n")
    rows = audited(tmp_path / "list.txt")
    assert [row.verdict for row in rows] == ["unread", "accepted", "unread"]
    assert len(listed(tmp_path / "list.txt")) == 3
    with pytest.raises(OSError):
        stores.opened(str(tmp_path / "list.txt")).held((0,))


def test_a_binary_file_is_rows_or_a_line(tmp_path):
    path = tmp_path / "list.txt"
    path.write_bytes(bytes(range(256)) * 20)
    assert {row.verdict for row in audited(path)} == {"unread"}
    path.write_bytes(b"\x89PNG" + b"x" * 100_000)
    with pytest.raises(StoreError, match="no list: the line at byte 0 is longer than any name"):
        audited(path)


def test_a_hole_of_a_terabyte_is_no_line(tmp_path):
    path = tmp_path / "list.txt"
    with open(path, "wb") as file:
        file.truncate(1 << 40)
    for ask in (audited, listed):
        with pytest.raises(StoreError, match="longer than any name"):
            ask(path)


def test_odd_names_in_a_list(tmp_path):
    names = [
        b"/dev/zero",
        b".",
        b"..",
        b"/",
        b"x" * 300,
        b"x/" * 3000,
        b"\xff\xfe",
        b"\x1b[2J",
        b"~",
        b"-",
        b"http://127.0.0.1:1/",
        b"99/99999999999/1.mvt",
    ]
    (tmp_path / "list.txt").write_bytes(b"\n".join(names))
    rows = audited(tmp_path / "list.txt")
    assert [row.verdict for row in rows] == ["unread"] * len(names)
    assert len(listed(tmp_path / "list.txt")) == len(names)


@pytest.mark.parametrize("key", [(-1,), ("0",), (1,), (1 << 70,), (), (0, 0), (None,)], ids=short)
def test_a_key_that_is_no_line(key, tmp_path):
    (tmp_path / "list.txt").write_text("one\ntwo\n")
    store = stores.opened(str(tmp_path / "list.txt"))
    for ask in (store.held, lambda key: list(store.since(key))):
        with pytest.raises(ValueError):
            ask(key)


# ---- what a folder says of itself


def with_metadata(folder, content):
    make_tree(folder, {(0, 0, 0): TILE})
    (folder / "metadata.json").write_bytes(content)
    return stores.opened(str(folder))


SAID = [
    b"",
    b"[",
    b"null",
    b"5",
    b'"a"',
    b"[" * 100_000,
    b'{"a":' * 100_000,
    b"\xff\xfe",
    b"9" * 5000,
    b'{"minzoom": ' + b"9" * 5000 + b"}",
]


@pytest.mark.parametrize("content", SAID, ids=short)
def test_metadata_that_are_none(content, tmp_path):
    with pytest.raises(ValueError):
        with_metadata(tmp_path / "tree", content).metadata()


def test_metadata_of_a_terabyte_in_a_hole(tmp_path):
    store = with_metadata(tmp_path / "tree", b"{}")
    os.truncate(tmp_path / "tree" / "metadata.json", 1 << 40)
    with pytest.raises(ValueError):
        store.metadata()
    (tmp_path / "tree" / "metadata.json").unlink()
    os.mkfifo(tmp_path / "tree" / "metadata.json")
    assert store.metadata() == {}


@settings(max_examples=200, deadline=None)
@given(
    make.binary(max_size=50)
    | make.recursive(make.none() | make.floats() | make.integers() | make.text(max_size=5), make.lists)
    .map(json.dumps)
    .map(str.encode)
)
def test_any_metadata_are_an_object_or_refused(content):
    with tempfile.TemporaryDirectory() as room:
        try:
            assert isinstance(with_metadata(Path(room), content).metadata(), dict)
        except ValueError:
            pass
