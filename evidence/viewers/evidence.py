"""The evidence tiles: for each finding the smallest tiles that have it, and beside them tiles at its limit that don't.

Each tile has a layer `a`, which shows the finding, and a layer `b` with a point at its centre, which tells whether the
viewer draws the rest of the tile."""
import pathlib
import sys

sys.path.insert(0, str(pathlib.Path(__file__).resolve().parents[2] / "tests/program"))
from wire import field, packed, zigzag

SAFE = 2**53 - 1


def layer(name, features, extent=4096, entries=b""):
    """No extent where it is None; keys and values are spelled by the caller."""
    head = field(15, 2) + field(1, name.encode())
    return field(
        3, head + b"".join(field(2, f) for f in features) + entries + (b"" if extent is None else field(5, extent))
    )


def geometry(kind, integers):
    return field(3, kind) + field(4, packed(integers))


def moves(places):
    """The parameters of places, each from the one before it."""
    before = (0, 0)
    for place in places:
        yield from (zigzag(place[0] - before[0]), zigzag(place[1] - before[1]))
        before = place


def line(*places):
    to = list(moves(places))
    return geometry(2, [9, *to[:2], (len(places) - 1) << 3 | 2, *to[2:]])


def point(*place):
    return geometry(1, [9, *moves([place])])


def tile(features, extent=4096, entries=b""):
    middle = 2048 if extent is None else max(extent // 2, 1)
    return layer("a", features, extent, entries) + layer("b", [point(middle, middle)], extent)


def corner(extent, far):
    """A line from a place to a far one and to a third: where the far one is left out, nothing lies to the right."""
    near, low = extent // 4, extent - extent // 4
    return line((near, near), (far, near), (near, low))


def leftwards(extent, far):
    """The same to the left."""
    right, low = extent - extent // 4, extent - extent // 4
    return line((right, right // 2), (far, right // 2), (right, low))


def far_tiles():
    """Of an extent of 32768 a unit is a fourth of an 8192th: 131070 is 32767.5, and -131074 is -32768.5."""
    for far, extent in (
        (16384, 4096),
        (16383, 4096),
        (2048, 512),
        (2047, 512),
        (4, 1),
        (3, 1),
        (262143, 65536),
        (30000, 65536),
        (131070, 32768),
        (131069, 32768),
    ):
        yield f"right-{far}-of-{extent}", tile([corner(extent, far)], extent)
    for far, extent in ((-16385, 4096), (-16384, 4096), (-131074, 32768), (-131073, 32768)):
        yield f"left{far}-of-{extent}", tile([leftwards(extent, far)], extent)


def tiles():
    """Names and tiles."""
    number = field(3, b"n")
    plain = tile([line((1024, 1024), (3072, 1024), (1024, 3072))])
    yield "no-finding", plain
    yield "no-extent", tile([line((1024, 1024), (3072, 1024), (1024, 3072))], None)
    yield "zero-extent", layer("a", [line((0, 0), (1, 0), (0, 1))], 0) + layer("b", [point(2048, 2048)])
    yield "no-geometry", tile([b""])
    yield "unknown-without-integers", tile([geometry(0, [])])
    yield "unknown-with-integers", tile([geometry(0, [7, 7, 9])])
    yield "unknown-with-a-point", tile([geometry(0, [9, 50, 34])])
    yield from far_tiles()
    yield "far-point-alone", tile([point(20000, 0)])
    yield "far-line-alone", tile([line((20000, 0), (20000, 100))])
    shown = line((1024, 1024), (3072, 1024), (1024, 3072))
    yield "large-id", tile([field(1, SAFE + 1) + shown])
    yield "largest-safe-id", tile([field(1, SAFE) + shown])
    yield "large-number", tile([field(2, packed([0, 0])) + shown], 4096, number + field(4, field(5, SAFE + 1)))
    yield "largest-safe-number", tile([field(2, packed([0, 0])) + shown], 4096, number + field(4, field(5, SAFE)))
