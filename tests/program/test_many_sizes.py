"""Tiles of the sizes at which code could turn, each through each command. With ample memory no command may report that
it is out of memory."""

import json

import pytest
import sizes
from sizes import awkward_bytes, first_uses, layer_bytes, payload_of
from wire import field, varint

TILES = dict(sizes.tiles())
LAYERS = {name: layers[0] for name, layers in TILES.items() if len(layers) == 1 and "name" in layers[0]}


def written(layers):
    return [field(3, payload_of(item)) for item in layers]


def features_of(layers):
    return sum(len(item.get("features", [])) for item in layers)


def is_short(answer, wanted):
    """Whether an answer is as wanted; a failure shows its beginning."""
    status, output, told = answer
    return (status, output[:200], told, output == wanted) == (0, wanted[:200], "", True)


@pytest.mark.parametrize("name", TILES)
def test_check(run, name):
    status, report, told = run("check", tile=b"".join(written(TILES[name])))
    ok = f"ok layers {len(TILES[name])} features {features_of(TILES[name])} canonical yes\n".encode()
    assert (status, report[: len(ok)], told) == (0, ok, "")


@pytest.mark.parametrize("name", TILES)
def test_draw(run, name):
    status, picture, told = run("draw", tile=b"".join(written(TILES[name])))
    assert (status, picture.count(b"<path "), told) == (0, features_of(TILES[name]), "")


@pytest.mark.parametrize("name", TILES)
def test_show(run, name):
    layers = {"layers": TILES[name]}
    wanted = json.dumps(layers, ensure_ascii=False, sort_keys=True, separators=(",", ":")) + "\n"
    assert is_short(run("show", tile=b"".join(written(TILES[name]))), wanted.encode())


@pytest.mark.parametrize("name", TILES)
def test_rewrite(run, name):
    tile = b"".join(written(TILES[name]))
    assert is_short(run("rewrite", tile=tile), tile)


@pytest.mark.parametrize("name", TILES)
def test_fields(run, name):
    status, lines, told = run("fields", tile=b"".join(written(TILES[name])))
    assert (status, lines.count(b"\n"), told) == (0, len(TILES[name]), "")


@pytest.mark.parametrize("name", [name for name, layers in TILES.items() if any("name" in item for item in layers)])
def test_extract(run, name):
    fields, layers = written(TILES[name]), TILES[name]
    wanted = b"".join(it for it, item in zip(fields, layers) if "name" in item)
    names = [item["name"] for item in layers if "name" in item]
    assert is_short(run("extract", "--", *names, tile=b"".join(fields)), wanted)


@pytest.mark.parametrize("name", LAYERS)
def test_another_form(run, name):
    """The same layer, not in canonical form."""
    layer = LAYERS[name]
    tile, canonical = field(3, awkward_bytes(layer)), field(3, layer_bytes(layer))
    assert is_short(run("rewrite", tile=tile), canonical)
    status, report, told = run("check", tile=tile)
    ok = f"ok layers 1 features {len(layer['features'])} canonical no\n".encode()
    assert (status, report[: len(ok)], told) == (0, ok, "")


@pytest.mark.parametrize("command", ["check", "rewrite", "show"])
@pytest.mark.parametrize("name", LAYERS)
def test_broken_at_its_end(run, name, command):
    """A last feature names a key too many."""
    layer = LAYERS[name]
    keys = len(first_uses(key for feature in layer["features"] for key, _ in feature["attributes"]))
    last = field(2, varint(keys) + b"\x00") + b"\x18\x01\x22\x03\x09\x32\x22"
    fault = f"layer 0 feature {len(layer['features'])} at 0: 14 KeyIndex\n"
    assert run(command, tile=field(3, layer_bytes(layer) + field(2, last))) == (1, b"", fault)
