"""A store's description of itself against its tiles: zooms, bounds, layers and keys, in each kind of store."""

import gzip
import json
import sqlite3
from contextlib import closing

import archives
import libmvt
import pytest
from common import audit, example_tiles, make_mbtiles, make_tree
from mvt_tools.audit import described

FEATURE = libmvt.Feature(None, {"name": "x", "depth": 1}, "points", [(1, 1)])
TILE = libmvt.write(libmvt.Tile([libmvt.Layer("water", 4096, [FEATURE])]))
# Two tiles at the middle of the world, and what is true of them.
TILES = {(2, 1, 1): TILE, (3, 3, 3): TILE}
TRUE = {
    "minzoom": 2,
    "maxzoom": 3,
    "bounds": [-90, 0, 0, 66],
    "vector_layers": [{"id": "water", "fields": {"name": "String", "depth": "Number"}}],
}
OTHER = {
    "minzoom": 0,
    "maxzoom": 5,
    "bounds": [100, -60, 170, -50],
    "vector_layers": [{"id": "roads"}, {"id": "water", "fields": {"name": "String"}}],
}
SAID = [
    "minzoom is 0, and the first zoom with tiles is 2",
    "maxzoom is 5, and the last zoom with tiles is 3",
    "bounds are 100, -60, 170, -50, and zoom 2 has tiles outside: columns 1 to 1, rows 1 to 1",
    "vector_layers has layers that no accepted tile has: “roads”",
    "vector_layers lacks keys of accepted tiles: “depth” of “water”",
]


def with_metadata(path, said):
    """An MBTiles file that says this of itself."""
    texts = {name: said[name] for name in ("minzoom", "maxzoom")}
    texts["bounds"] = ",".join(map(str, said["bounds"]))
    texts["json"] = json.dumps({"vector_layers": said["vector_layers"]})
    with closing(sqlite3.connect(make_mbtiles(path, TILES))) as database, database:
        database.executemany("insert into metadata values (?, ?)", ((name, str(text)) for name, text in texts.items()))
    return path


def stores(room, said):
    yield with_metadata(room / "a.mbtiles", said)
    tree = make_tree(room / "tree", TILES)
    (tree / "metadata.json").write_text(json.dumps(said))
    yield tree
    content = archives.archive(TILES, said=said)
    (room / "a.pmtiles").write_bytes(content)
    yield room / "a.pmtiles"


@pytest.mark.parametrize("said, wanted", [(TRUE, []), (OTHER, SAID)])
def test_each_store(said, wanted, tmp_path):
    for store in stores(tmp_path, said):
        status, out, error = audit(store, "--into", tmp_path / f"of {store.name}")
        assert (status, error) == (0, "")
        assert [line[10:] for line in out.splitlines() if line.startswith("metadata: ")] == wanted
        report = (tmp_path / f"of {store.name}" / "report.html").read_text()
        assert all(each in report for each in wanted)
        assert ("The metadata and the tiles differ" in report) == bool(wanted)


def test_a_layer_that_is_not_named(tmp_path):
    said = {**TRUE, "vector_layers": [{"id": "wa\x1bter"}]}
    _, out, _ = audit(with_metadata(tmp_path / "a.mbtiles", said), "--into", tmp_path / "audit", "--json")
    assert [each["difference"] for each in json.loads(out)["metadata"]] == [
        "vector_layers lacks layers of accepted tiles: “water” in 2",
        "vector_layers has layers that no accepted tile has: “wa\\x1bter”",
    ]


@pytest.mark.parametrize(
    "said",
    [
        {"json": "{"},
        {"json": "[" * 100_000},
        {"minzoom": "a", "maxzoom": "b"},
        {"bounds": "1,2,3"},
        {"bounds": "1,2,3,nan"},
        {"vector_layers": 5},
        {"vector_layers": [{}]},
    ],
)
def test_a_description_of_another_form_is_one_line(said, tmp_path):
    with closing(sqlite3.connect(make_mbtiles(tmp_path / "a.mbtiles", TILES))) as database, database:
        database.executemany(
            "insert into metadata values (?, ?)",
            ((name, str(text)) for name, text in said.items() if name != "vector_layers"),
        )
        if "vector_layers" in said:
            database.execute("insert into metadata values ('json', ?)", (json.dumps(said),))
    status, out, error = audit(tmp_path / "a.mbtiles", "--into", tmp_path / "audit")
    assert (status, error) == (0, "")
    assert len([line for line in out.splitlines() if line.startswith("metadata: its description can't be read: ")]) == 1


def test_nothing_is_told_of_a_description_that_a_link_leads_to(tmp_path):
    (tmp_path / "secret.json").write_text('{"vector_layers": [{"id": "secret"}]}')
    folder = make_tree(tmp_path / "tree", TILES)
    (folder / "metadata.json").symlink_to(tmp_path / "secret.json")
    _, out, _ = audit(folder, "--into", tmp_path / "audit")
    assert "metadata: its description can't be read: metadata.json is a link that leads out of the store\n" in out
    assert "“secret”" not in out + (tmp_path / "audit" / "report.html").read_text()


def test_what_says_nothing_differs_in_nothing(tmp_path):
    for store in (make_tree(tmp_path / "tree", TILES), make_mbtiles(tmp_path / "a.mbtiles", TILES)):
        _, out, _ = audit(store, "--into", tmp_path / f"of {store.name}")
        assert "metadata: " not in out


def test_forms_of_descriptions():
    zooms = described.Description((0, 5), None, None)
    assert described.description({"minzoom": "0", "maxzoom": 5}) == zooms
    assert described.description({"minzoom": 0}) == described.Description(None, None, None)
    assert described.description({"bounds": "-180,-85,180,85"}).bounds == (-180, -85, 180, 85)
    assert described.description({"json": '{"vector_layers": [{"id": "a"}]}'}).layers == {"a": set()}


def test_broken_tiles_hide_no_layer(tmp_path):
    """What is said of layers is of accepted tiles."""
    said = {**TRUE, "bounds": [-180, -85, 180, 85]}
    path = with_metadata(tmp_path / "a.mbtiles", said)
    with closing(sqlite3.connect(path)) as database, database:
        database.execute("insert into tiles values (3, 0, 0, ?)", (gzip.compress(example_tiles()["20-ZeroSegment"]),))
    status, out, _ = audit(path, "--into", tmp_path / "audit")
    assert status == 1 and "metadata: " not in out


NUMBERS = [
    ('{"minzoom": 1e400, "maxzoom": 5}', "minzoom and maxzoom are no zooms"),
    ('{"minzoom": 0, "maxzoom": 1' + "0" * 400 + "}", "minzoom and maxzoom are no zooms"),
    ('{"minzoom": -1, "maxzoom": 5}', "minzoom and maxzoom are no zooms"),
    ('{"bounds": [0, 0, 1e308, 1]}', "bounds are no four numbers of degrees"),
    ('{"bounds": [0, 0, 1e400, 1]}', "bounds are no four numbers of degrees"),
    ('{"bounds": [0, 0, 1' + "0" * 400 + ", 1]}", "bounds are no four numbers of degrees"),
]


@pytest.mark.parametrize("said, why", NUMBERS, ids=range(len(NUMBERS)))
def test_numbers_that_are_too_large_are_a_line(tmp_path, said, why):
    folder = make_tree(tmp_path / "tree", TILES)
    (folder / "metadata.json").write_text(said)
    status, out, error = audit(folder, "--into", tmp_path / "audit")
    assert (status, error) == (0, "")
    assert f"metadata: its description can't be read: {why}\n" in out
    assert "can&#x27;t be read" in (tmp_path / "audit" / "report.html").read_text()
