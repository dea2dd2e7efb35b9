"""Where faults stand, as the server answers `explain`, is as the program says (fixtures/tiles/cases.py)."""

import struct
from types import SimpleNamespace

import cases
import places
import pytest
from libmvt import LOOKALIKES
from room import others


def read(told):
    """An answer: what the bytes look like, the fault, its place, and the sentence."""
    kind, layer, feature, at, cause, length = struct.unpack_from("<IqqQII", told, 4)
    name = told[40 : 40 + length].decode()
    fault = SimpleNamespace(
        layer=None if layer < 0 else layer, feature=None if feature < 0 else feature, at=at, cause=cause, name=name
    )
    looks, begin = None, 40 + length
    if kind:
        (size,) = struct.unpack_from("<I", told, begin)
        looks, begin = told[begin + 4 : begin + 4 + size].decode(), begin + 4 + size
    has_name, has_id, number, start, end, length, sentence = struct.unpack_from("<IIQQQII", told, begin)
    words = told[begin + 40 :]
    assert len(words) == length + sentence
    place = SimpleNamespace(
        name=words[:length] if has_name else None, id=number if has_id else None, start=start, end=end
    )
    said = words[length:].decode()
    assert looks in (None, said)
    return LOOKALIKES.get(kind), fault, place, said


def line_of(fault):
    layer, feature = ("-" if index is None else index for index in (fault.layer, fault.feature))
    return f"layer {layer} feature {feature} at {fault.at}: {fault.cause} {fault.name}\n"


def right(case, told):
    """Whether an answer says of a case what the program does."""
    if "fault" not in case.said:
        return told == struct.pack("<II", 0, 0)
    kind, fault, place, sentence = read(told)
    holders = "" if fault.layer is None else places.holders_line(fault, place) + "\n"
    said = line_of(fault), f"{place.start} {place.end}\n", f"{sentence}\n", kind
    wanted = case.said["fault"], case.said["place"], case.said["sentence"], places.looks_like(case.tile)
    return said == wanted and case.said["explain"].startswith(holders)


@pytest.mark.parametrize("part", ["examples", *cases.OTHERS])
def test_each_place(serving, part):
    given = cases.examples() if part == "examples" else cases.read(others() / part)
    assert not [case.name for case in given if not right(case, serving.call("explain", case.tile[: places.LIMIT + 1]))]
