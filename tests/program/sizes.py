"""Tiles of the sizes at which code could turn.

None, one and two of a kind, around each bound up to which entries are compared one by one, are found by their places
or texts lie in place, a hundred and a thousand, the ends of ranges, a layer of each kind, and layers that aren't
canonical or break a rule at their end. This module makes a tile's canonical bytes by itself."""

from wire import field, packed, zigzag

COUNTS = [0, 1, 2, 7, 8, 9, 15, 16, 17, 32, 33, 34, 48, 49, 100, 1000]
# So many keys and as many values in a layer.
MANY = [65_536, 65_537, 70_000]
LENGTHS = [0, 1, 13, 14, 15, 16, 100, 127, 128, 1000]
EXTENTS = [0, 1, 127, 128, 4095, 4096, 4097, 2**32 - 1]
IDS = [0, 1, 127, 128, 2**32, 2**64 - 1]
KINDS = {"points": 1, "lines": 2, "polygons": 3, "unknown": 0}
HOLE = [[2, 2], [2, 8], [8, 8]]
SQUARE = [[0, 0], [10, 0], [10, 10], [0, 10]]


def path(points, cursor):
    """The differences of points, each from the one before it; the cursor then stands at the last."""
    integers = []
    for point in points:
        integers += [zigzag(point[0] - cursor[0]), zigzag(point[1] - cursor[1])]
        cursor[:] = point
    return integers


def strokes(lines, end):
    cursor = [0, 0]
    integers = []
    for line in lines:
        integers += [9, *path(line[:1], cursor), (len(line) - 1) << 3 | 2, *path(line[1:], cursor), *end]
    return integers


def integers_of(kind, shape):
    if kind == "unknown":
        return shape
    if kind == "points":
        return [len(shape) << 3 | 1, *path(shape, [0, 0])]
    if kind == "lines":
        return strokes(shape, [])
    return strokes([ring for polygon in shape for ring in (polygon["outer"], *polygon["rest"])], [15])


def value_bytes(kind, content):
    if kind == "string":
        return field(1, content.encode())
    if kind == "float_bits":
        return b"\x15" + content.to_bytes(4, "little")
    if kind == "double_bits":
        return b"\x19" + content.to_bytes(8, "little")
    if kind == "int":
        return field(4, content % 2**64)
    if kind == "uint":
        return field(5, content)
    return field(6, zigzag(content)) if kind == "sint" else field(7, int(content))


def first_uses(entries):
    return list(dict.fromkeys(entries))


def layer_bytes(layer):
    """The canonical payload of a layer: its JSON, with attributes as pairs of a key and a value's form."""
    attributes = [it for feature in layer["features"] for it in feature["attributes"]]
    keys = {key: index for index, key in enumerate(first_uses(key for key, _ in attributes))}
    values = first_uses(next(iter(value.items())) for _, value in attributes)
    places = {value: index for index, value in enumerate(values)}
    payload = b"\x78\x02" + field(1, layer["name"].encode())
    for feature in layer["features"]:
        ((kind, shape),) = feature["geometry"].items()
        body = b"" if feature["id"] is None else field(1, feature["id"])
        tags = [n for key, value in feature["attributes"] for n in (keys[key], places[next(iter(value.items()))])]
        if tags:
            body += field(2, packed(tags))
        body += field(3, KINDS[kind]) + field(4, packed(integers_of(kind, shape)))
        payload += field(2, body)
    payload += b"".join(field(3, key.encode()) for key in keys)
    payload += b"".join(field(4, value_bytes(*value)) for value in values)
    return payload + field(5, layer["extent"])


def awkward_bytes(layer):
    """A payload of the same layer that isn't canonical: its version stands last, and keys and values in front of the
    features, each list from its last entry to its first behind one that nothing names."""
    attributes = [it for feature in layer["features"] for it in feature["attributes"]]
    keys = [None, *reversed(first_uses(key for key, _ in attributes))]
    values = [None, *reversed(first_uses(next(iter(value.items())) for _, value in attributes))]
    key_at = {key: index for index, key in enumerate(keys)}
    value_at = {value: index for index, value in enumerate(values)}
    payload = field(5, layer["extent"]) + field(3, b"unused") + b"".join(field(3, key.encode()) for key in keys[1:])
    payload += field(4, field(1, b"unused")) + b"".join(field(4, value_bytes(*value)) for value in values[1:])
    for feature in layer["features"]:
        ((kind, shape),) = feature["geometry"].items()
        body = field(3, KINDS[kind]) + field(4, packed(integers_of(kind, shape)))
        tags = [n for key, value in feature["attributes"] for n in (key_at[key], value_at[next(iter(value.items()))])]
        body += field(2, packed(tags))
        payload += field(2, body + (b"" if feature["id"] is None else field(1, feature["id"])))
    return payload + field(1, layer["name"].encode()) + b"\x78\x02"


def feature(attributes=(), identifier=None, kind="points", shape=((25, 17),)):
    shape = [list(point) for point in shape] if kind == "points" else shape
    return {"attributes": [list(it) for it in attributes], "geometry": {kind: shape}, "id": identifier}


def layer(features=(), name="a", extent=4096):
    return {"extent": extent, "features": list(features), "name": name}


def numbered(count):
    return [(f"k{number}", {"uint": number}) for number in range(count)]


def up_and_down(count):
    return [[x, x % 2] for x in range(count)]


def drawn(kind, shape):
    return [layer([feature(kind=kind, shape=shape)])]


def polygons(count):
    return [{"outer": SQUARE, "rest": [HOLE] * (number % 3)} for number in range(count)]


def values():
    signed, unsigned = (-(2**63), -1, 0, 2**63 - 1), (0, 2**64 - 1)
    ends = {"int": signed, "sint": signed, "uint": unsigned, "double_bits": unsigned}
    ends |= {"float_bits": (0, 2**32 - 1), "bool": (False, True)}
    return [{kind: content} for kind, contents in ends.items() for content in contents]


def tiles():
    """Each tile by a name, as the list of its layers."""
    for count in COUNTS:
        yield f"{count} layers", [layer(name=f"n{number}") for number in range(count)]
        yield f"{count} features", [layer(feature(numbered(number % 3), number) for number in range(count))]
        yield f"{count} attributes", [layer([feature(numbered(count)), feature(numbered(2))])]
        yield f"{count} integers", drawn("unknown", [2**32 - 1 - number for number in range(count)])
        if count:
            yield f"{count} points", drawn("points", up_and_down(count))
            yield f"{count} lines", drawn("lines", [up_and_down(2)] * count)
            yield f"{count} polygons", drawn("polygons", polygons(count))
            yield f"{count} holes", drawn("polygons", [{"outer": SQUARE, "rest": [HOLE] * count}])
        if count > 1:
            yield f"a line of {count} points", drawn("lines", [up_and_down(count)])
    for extent in EXTENTS:
        yield f"extent {extent}", [layer([feature()], extent=extent)]
    for identifier in IDS:
        yield f"id {identifier}", [layer([feature(identifier=identifier)])]
    for length in LENGTHS:
        text = "x" * length
        yield f"texts of {length} bytes", [layer([feature([(text, {"string": text})])], name=text)]
    for number, value in enumerate(values()):
        yield f"value {number}", [layer([feature([("k", value)])])]
    far = 2**31 - 1
    yield "the ends of positions", drawn("points", [[far, 0], [0, -far], [0, 0], [-far, 0]])
    foreign = {"foreign": {"length": 5, "version": 1}}
    yield "a layer of each kind", [layer([feature()], "a"), foreign, layer(name="b")]
    for count in MANY:
        yield f"{count} attributes", [layer([feature(numbered(count)), feature(numbered(2))])]
    for count in [0, 1, 16, 70_000]:
        foreign = {"foreign": {"length": 8 + 4 * count, "version": 3}}
        yield f"a layer of version 3 with {count} values", [foreign, layer([feature(numbered(2))])]


def payload_of(item):
    """The canonical payload: of version 1 with its version in front, of version 3 with it behind the values."""
    if "name" in item:
        return layer_bytes(item)
    length, version = item["foreign"]["length"], item["foreign"]["version"]
    if version == 1:
        return b"\x78\x01\x0a\x01\x61"
    return b"\x0a\x01\x61" + b"\x22\x02\x28\x01" * (length // 4 - 2) + b"\x78\x03\x1a\x01k"
