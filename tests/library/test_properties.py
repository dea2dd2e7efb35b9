"""The Python module on whatever comes, by hypothesis: tiles that keep every rule are written, built and read as the same
tile, in pieces too; any bytes have one verdict; and objects that are no tile end in one of the errors that are documented."""

import struct

import libmvt
import pytest
from hypothesis import HealthCheck, given, settings
from hypothesis import strategies as some

CALLS = (
    libmvt.read,
    libmvt.rows,
    libmvt.rewrite,
    libmvt.report,
    libmvt.survey,
    libmvt.lint,
    libmvt.to_json,
    libmvt.to_svg,
)
# A busy machine is no fault.
busy = [HealthCheck.too_slow, HealthCheck.data_too_large]
settings.register_profile("gate", derandomize=True, deadline=None, max_examples=300, suppress_health_check=busy)
settings.load_profile("gate")

# Two positions may differ by as much as a zigzag of 32 bits says.
near = some.integers(-(2**29), 2**29)
points = some.tuples(near, near)
texts = some.text(max_size=20)
numbers = some.one_of(
    some.integers(0, 2**64 - 1).map(libmvt.Uint),
    some.integers(-(2**63), 2**63 - 1).map(libmvt.Int),
    some.integers(-(2**63), 2**63 - 1).map(libmvt.Sint),
    some.integers(0, 2**32 - 1).map(lambda bits: libmvt.Float(bits=bits)),
    some.floats(),
)
values = some.one_of(texts, some.booleans(), numbers)


@some.composite
def lines(draw):
    """A line that goes somewhere with each step."""
    line = [draw(points)]
    for dx, dy in draw(some.lists(some.tuples(some.integers(-99, 99), some.integers(-99, 99)), min_size=1, max_size=6)):
        line.append((line[-1][0] + dx, line[-1][1] + dy + (dx == dy == 0)))
    return line


@some.composite
def polygons(draw):
    """A rectangle, clockwise where y goes down, and some holes, which run the other way."""
    (x, y), wide, high = draw(points), draw(some.integers(1, 999)), draw(some.integers(1, 999))
    outer = [(x, y), (x + wide, y), (x + wide, y + high), (x, y + high)]
    return [outer] + [outer[::-1]] * draw(some.integers(0, 2))


geometries = some.one_of(
    some.tuples(some.just("points"), some.lists(points, min_size=1, max_size=5)),
    some.tuples(some.just("lines"), some.lists(lines(), min_size=1, max_size=3)),
    some.tuples(some.just("polygons"), some.lists(polygons(), min_size=1, max_size=3)),
    some.tuples(some.just("unknown"), some.lists(some.integers(0, 2**32 - 1), max_size=5)),
)


@some.composite
def features(draw):
    kind, geometry = draw(geometries)
    identifier = draw(some.none() | some.integers(0, 2**64 - 1))
    return libmvt.Feature(identifier, draw(some.dictionaries(texts, values, max_size=4)), kind, geometry)


@some.composite
def tiles(draw):
    names = draw(some.lists(texts, max_size=3, unique=True))
    extents = some.integers(0, 2**32 - 1)
    return libmvt.Tile([libmvt.Layer(name, draw(extents), draw(some.lists(features(), max_size=4))) for name in names])


def built(tile):
    """The tile, told to a builder."""
    builder = libmvt.Builder()
    for layer in tile.layers:
        builder.layer(layer.name, layer.extent)
        for feature in layer.features:
            builder.feature(feature.kind, feature.id)
            for key, value in feature.attributes.items():
                builder.tag(key, value)
            draw(builder, feature)
    return builder.finish()


def draw(builder, feature):
    if feature.kind == "points":
        builder.points(feature.geometry)
    elif feature.kind == "unknown":
        builder.integers(feature.geometry)
    elif feature.kind == "lines":
        for line in feature.geometry:
            builder.line(line)
    else:
        for polygon in feature.geometry:
            for number, ring in enumerate(polygon):
                builder.ring(ring, exterior=number == 0)


@given(tiles(), some.data())
def test_tiles(tile, data):
    written = libmvt.write(tile)
    assert libmvt.read(written) == tile
    assert libmvt.rewrite(written) == libmvt.write(libmvt.rows(written)) == built(tile) == written
    decoder, cuts = libmvt.Decoder(), data.draw(some.lists(some.integers(0, len(written)), max_size=4).map(sorted))
    for start, end in zip([0, *cuts], [*cuts, len(written)]):
        decoder.feed(written[start:end])
    assert decoder.finish() == tile


def verdict(call, content):
    try:
        call(content)
    except libmvt.Refused as why:
        return why.line
    return None


@given(some.binary(max_size=200))
def test_any_bytes(content):
    assert {verdict(call, content) for call in CALLS} == {verdict(libmvt.judge, content)}


@given(tiles(), some.data())
def test_changed_tiles(tile, data):
    content = bytearray(libmvt.write(tile))
    for _ in range(min(len(content), data.draw(some.integers(1, 3)))):
        content[data.draw(some.integers(0, len(content) - 1))] = data.draw(some.integers(0, 255))
    found = {verdict(call, bytes(content)) for call in CALLS}
    assert found == {verdict(libmvt.judge, bytes(content))}
    if found == {None}:
        assert libmvt.write(libmvt.read(bytes(content))) == libmvt.rewrite(bytes(content))


# What a tile's objects shouldn't hold, and what they may.
oddities = some.one_of(
    some.none(), some.integers(), some.floats(), some.text(max_size=3), some.binary(max_size=3), some.booleans(),
    some.lists(some.integers(-(2**40), 2**40), max_size=3), some.lists(points, max_size=3),
    some.lists(some.lists(points, max_size=3), max_size=2), some.dictionaries(texts, values, max_size=2),
    some.sampled_from([libmvt.Point, object(), "points", "polygons", "\ud800", struct.error]),
)  # fmt: skip
DOCUMENTED = (libmvt.MvtError, TypeError, ValueError, OverflowError, AttributeError)


@given(oddities, oddities, oddities, oddities, oddities, oddities)
def test_odd_objects(identifier, attributes, kind, geometry, name, extent):
    """Each is written, and then read as a tile, or ends in an error."""
    feature = libmvt.Feature(identifier, attributes, kind, geometry)
    for of in (
        libmvt.Tile([libmvt.Layer(name, extent, [feature])]),
        libmvt.Tile([libmvt.Layer("a", 4096, [feature])]),
        libmvt.Tile([libmvt.Layer("a", 4096, [libmvt.Feature(None, {}, kind, geometry)])]),
        libmvt.Tile([libmvt.Foreign(identifier, name)]),
        libmvt.Tile(geometry),
    ):
        try:
            written = libmvt.write(of)
        except DOCUMENTED:
            continue
        libmvt.judge(written)


STEPS = [
    "layer",
    "foreign",
    "key",
    "value",
    "feature",
    "tag",
    "tag_at",
    "point",
    "points",
    "line",
    "ring",
    "integers",
    "drop",
]


@given(
    some.lists(some.tuples(some.sampled_from(STEPS), some.lists(oddities | texts | points, max_size=3)), max_size=12)
)
def test_odd_builders(steps):
    """Calls in any order, with any arguments: each answers or raises, and what is finished is a tile."""
    builder = libmvt.Builder()
    for name, given_to in steps:
        try:
            getattr(builder, name)(*given_to)
        except DOCUMENTED:
            pass
    try:
        finished = builder.finish()
    except DOCUMENTED:
        return
    libmvt.judge(finished)


@pytest.mark.parametrize("call", [libmvt.judge, *CALLS], ids=lambda it: it.__name__)
@given(oddities)
def test_what_is_no_bytes(call, given_to):
    """A call takes bytes or what lends them, and nothing else."""
    if isinstance(given_to, bytes):
        return
    with pytest.raises(TypeError):
        call(given_to)
