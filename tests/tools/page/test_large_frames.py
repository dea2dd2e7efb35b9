"""Frames as large as there may be: tiles of 4 to 64 MiB, asked for over HTTP, by calls that take several parts."""

import json
import struct

import libmvt
import pytest
from serving import frames, parts_of

SIZES = [4 << 20, 32 << 20, libmvt.LIMIT]
OK, REFUSED = 0, 1
[TOO_LARGE] = [number for number, name in libmvt.CAUSES.items() if name == "TooLarge"]


def tile_of(size):
    """A tile of so many canonical bytes, most of which are an attribute's."""

    def made(length):
        return libmvt.Builder().layer("a").feature("points").tag("k", "x" * length).point(1, 1).finish()

    return made(2 * (size - 100) - len(made(size - 100)) + 100)


def status(answer):
    """The status, and what stands behind it."""
    return struct.unpack_from("<I", answer)[0], answer[8:]


@pytest.mark.parametrize("size", SIZES)
def test_each_call_answers(size, serving):
    tile = tile_of(size)
    assert len(tile) == size
    assert status(serving.call("extract", frames(b"a", tile))) == (OK, tile)
    answers = list(map(status, parts_of(serving.call("surveys", frames(b"", tile, b"\x1a")))))
    assert [each for each, _ in answers] == [OK, OK, REFUSED]
    for place in (b"", b"3/1/2"):
        found, told = status(serving.call("geojson", frames(place, tile)))
        [feature] = json.loads(told)["features"]
        assert (found, feature["properties"]) == (OK, libmvt.read(tile)["a"].features[0].attributes)


def test_as_many_tiles_as_there_is_room_for(serving):
    tile = tile_of(4 << 20)
    answers = parts_of(serving.call("surveys", frames(*[tile] * 16)))
    assert {status(each)[0] for each in answers} == {OK} and len(answers) == 16


def test_a_tile_beyond_the_limit_is_too_large(serving):
    tile = tile_of(libmvt.LIMIT) + b"\0"
    answers = [
        serving.call("extract", frames(b"a", tile)),
        serving.call("geojson", frames(b"", tile)),
        *parts_of(serving.call("surveys", frames(tile))),
    ]
    for answer in answers:
        found, told = status(answer)
        assert (found, struct.unpack_from("<qqQI", told)[3]) == (REFUSED, TOO_LARGE)


def test_a_body_beyond_all_frames_is_refused(serving):
    # The head alone: the answer comes before a body that isn't wanted is sent whole, which may end the sending.
    length = len(frames(b"a", b"")) + libmvt.LIMIT + (5 << 20)
    assert serving.ask("POST", "extract", headers={"Content-Length": str(length)})[0] == 413
    assert serving.call("judge", b"") == bytes(8)


def test_frames_that_say_more_than_there_is(serving):
    tile = tile_of(4 << 20)
    for body in (
        frames(b"a", tile)[:-1],
        frames(b"a", tile) + b"\0",
        struct.pack("<I", 1 << 31) + tile,
        struct.pack("<II", 1, 1 << 31) + tile,
        tile,
    ):
        for call in ("extract", "surveys", "geojson"):
            assert serving.ask("POST", call, body)[0] == 400
    assert serving.memory("VmHWM") < 2000
