#!/usr/bin/env python3
"""Tiles as objects of Python, by the module libmvt, by protobuf's module, by GDAL, and as shapes of shapely; as columns of numpy
and geopandas; and as GeoJSON.

    objects.py [ROUNDS]

Three made tiles: points with attributes, long lines, and polygons with holes. Each way gives features with attributes and
lists of points; the ways take turns, and the best of the rounds counts, in a processor's time. Before, what is read is
compared. A way whose module isn't there is left out. Wants `libmvt`; protobuf is python3-protobuf, GDAL python3-gdal, shapely
python3-shapely, geopandas python3-geopandas.
"""

import json
import math
import sys
import time
from importlib.util import find_spec

import libmvt

WAYS = {}
KINDS = ("unknown", "points", "lines", "polygons")
PLACE = (14, 8192, 8191)


def way(does, name):
    def keep(function):
        WAYS[does, name] = function
        return function

    return keep


def tiles():
    """Made tiles, by name."""
    points = [
        libmvt.Feature(
            n,
            {"name": "place %d" % n, "height": n % 900 / 4, "floors": n % 30, "open": n % 3 == 0},
            "points",
            [(n % 4096, n // 9 % 4096)],
        )
        for n in range(40000)
    ]
    lines = [
        libmvt.Feature(n, {"class": "road %d" % (n % 9)}, "lines", [[(i * 7 % 4096 + n, i + n) for i in range(2000)]])
        for n in range(500)
    ]

    def ring(x, y, size, turn):
        around = [turn * 2 * math.pi * i / 40 for i in range(40)]
        return [(x + int(size * math.cos(a)), y + int(size * math.sin(a))) for a in around]

    def lake(x, y):
        return [ring(x, y, 200, 1), ring(x, y, 100, -1)]

    polygons = [
        libmvt.Feature(n, {"kind": "lake", "area": float(n)}, "polygons", [lake(300 + n % 4000, 300 + n // 4)])
        for n in range(5000)
    ]
    made = {"points": points, "lines": lines, "polygons": polygons}
    return {name: libmvt.write(libmvt.Tile([libmvt.Layer("a", 4096, features)])) for name, features in made.items()}


@way("read", "libmvt.read")
def read(tile, _):
    [layer] = libmvt.read(tile).layers
    return [(feature.id, feature.attributes, feature.geometry) for feature in layer.features]


@way("write", "libmvt.write")
def write(_, tile):
    return libmvt.write(tile)


@way("geojson", "libmvt.to_geojson")
def geojson(tile, _):
    return json.dumps(libmvt.to_geojson(tile, *PLACE)).encode()


if find_spec("numpy") is not None:

    @way("columns", "Rows.frame")
    def columns(tile, _):
        return libmvt.rows(tile).frame("a")


if find_spec("geopandas") is not None:

    @way("columns", "libmvt.to_geopandas")
    def frame(tile, _):
        return libmvt.to_geopandas(libmvt.rows(tile).frame("a"), *PLACE)


def protobuf_tile():
    """The class of a tile, by the specification's schema."""
    from google.protobuf import descriptor_pb2, descriptor_pool, message_factory

    kind = descriptor_pb2.FieldDescriptorProto
    file = descriptor_pb2.FileDescriptorProto(name="vector_tile.proto", package="vt")

    def message(name, *fields):
        made = file.message_type.add(name=name)
        for number, field, type_, repeated, packed, of in fields:
            label = kind.LABEL_REPEATED if repeated else kind.LABEL_OPTIONAL
            added = made.field.add(name=field, number=number, type=type_, label=label, type_name=of)
            if packed:
                added.options.packed = True

    text, u32, u64 = kind.TYPE_STRING, kind.TYPE_UINT32, kind.TYPE_UINT64
    message(
        "Value",
        *((1, "string_value", text, 0, 0, None), (2, "float_value", kind.TYPE_FLOAT, 0, 0, None)),
        *((3, "double_value", kind.TYPE_DOUBLE, 0, 0, None), (4, "int_value", kind.TYPE_INT64, 0, 0, None)),
        *((5, "uint_value", u64, 0, 0, None), (6, "sint_value", kind.TYPE_SINT64, 0, 0, None)),
        (7, "bool_value", kind.TYPE_BOOL, 0, 0, None),
    )
    message(
        "Feature",
        *((1, "id", u64, 0, 0, None), (2, "tags", u32, 1, 1, None)),
        *((3, "type", u32, 0, 0, None), (4, "geometry", u32, 1, 1, None)),
    )
    message(
        "Layer",
        *((15, "version", u32, 0, 0, None), (1, "name", text, 0, 0, None)),
        *((2, "features", kind.TYPE_MESSAGE, 1, 0, ".vt.Feature"), (3, "keys", text, 1, 0, None)),
        *((4, "values", kind.TYPE_MESSAGE, 1, 0, ".vt.Value"), (5, "extent", u32, 0, 0, None)),
    )
    message("Tile", (3, "layers", kind.TYPE_MESSAGE, 1, 0, ".vt.Layer"))
    pool = descriptor_pool.DescriptorPool()
    pool.Add(file)
    return message_factory.MessageFactory(pool).GetPrototype(pool.FindMessageTypeByName("vt.Tile"))


def drawn(integers):
    """The points of each command, from a geometry's integers."""
    parts, x, y, at = [], 0, 0, 0
    while at < len(integers):
        command, count, at = integers[at] & 7, integers[at] >> 3, at + 1
        if command == 7:
            continue
        if command == 1:
            parts.append([])
        part = parts[-1]
        for at in range(at, at + 2 * count, 2):
            dx, dy = integers[at], integers[at + 1]
            x += (dx >> 1) ^ -(dx & 1)
            y += (dy >> 1) ^ -(dy & 1)
            part.append((x, y))
        at += 2
    return parts


def spelled(feature):
    """A geometry's integers."""
    integers, x, y = [], 0, 0
    parts = (
        feature.geometry if feature.kind != "polygons" else [ring for polygon in feature.geometry for ring in polygon]
    )
    for part in [parts] if feature.kind == "points" else parts:
        for number, (to_x, to_y) in enumerate(part):
            if number == 0:
                integers.append((len(part) if feature.kind == "points" else 1) << 3 | 1)
            elif number == 1 and feature.kind != "points":
                integers.append(len(part) - 1 << 3 | 2)
            dx, dy, x, y = to_x - x, to_y - y, to_x, to_y
            integers += ((dx << 1) ^ (dx >> 63), (dy << 1) ^ (dy >> 63))
        if feature.kind == "polygons":
            integers.append(15)
    return integers


try:
    ProtobufTile = protobuf_tile()

    def value_of(value):
        return getattr(value, value.ListFields()[0][0].name)

    @way("read", "protobuf")
    def read_protobuf(tile, _):
        layer = ProtobufTile.FromString(tile).layers[0]
        keys, values = list(layer.keys), [value_of(value) for value in layer.values]
        made = []
        for feature in layer.features:
            tags, parts = feature.tags, drawn(feature.geometry)
            attributes = {keys[key]: values[value] for key, value in zip(tags[::2], tags[1::2])}
            # the tiles here have one point, or one polygon with a hole
            geometry = parts[0] if feature.type == 1 else parts if feature.type == 2 else [parts]
            made.append((feature.id, attributes, geometry))
        return made

    @way("write", "protobuf")
    def write_protobuf(_, tile):
        out = ProtobufTile()
        for layer in tile.layers:
            to = out.layers.add(version=2, name=layer.name, extent=layer.extent)
            keys, values = {}, {}
            for feature in layer.features:
                added = to.features.add(id=feature.id, type=KINDS.index(feature.kind))
                for key, value in feature.attributes.items():
                    added.tags.append(keys.setdefault(key, len(keys)))
                    added.tags.append(values.setdefault((type(value), value), len(values)))
                added.geometry.extend(spelled(feature))
            to.keys.extend(keys)
            fields = {str: "string_value", bool: "bool_value", float: "double_value"}
            for kind, value in values:
                to.values.add(**{fields.get(kind, "uint_value"): value})
        return out.SerializeToString()

except ImportError:
    pass

try:
    from osgeo import gdal

    gdal.UseExceptions()

    @way("read", "GDAL")
    def read_gdal(tile, _):
        gdal.FileFromMemBuffer("/vsimem/tile.mvt", tile)
        # clipping at the tile's edge, which nobody else does here, is switched off
        held = gdal.OpenEx("MVT:/vsimem/tile.mvt", gdal.OF_VECTOR, open_options=["CLIP=NO"])
        made = []
        for feature in held.GetLayer(0):
            geometry = feature.GetGeometryRef()
            while geometry.GetGeometryCount() == 1:
                geometry = geometry.GetGeometryRef(0)
            rings = [geometry.GetGeometryRef(i).GetPoints() for i in range(geometry.GetGeometryCount())]
            made.append((feature.GetFID(), feature.items(), rings or geometry.GetPoints()))
        gdal.Unlink("/vsimem/tile.mvt")
        return made

    @way("geojson", "GDAL")
    def geojson_gdal(tile, _):
        gdal.FileFromMemBuffer("/vsimem/tile.mvt", tile)
        place = [f"{name}={number}" for name, number in zip("ZXY", PLACE)]
        held = gdal.OpenEx("MVT:/vsimem/tile.mvt", gdal.OF_VECTOR, open_options=["CLIP=NO", *place])
        gdal.VectorTranslate("/vsimem/out.geojson", held, options=["-f", "GeoJSON", "-lco", "RFC7946=YES"])
        file = gdal.VSIFOpenL("/vsimem/out.geojson", "rb")
        text = gdal.VSIFReadL(1, 1 << 30, file)
        gdal.VSIFCloseL(file)
        gdal.Unlink("/vsimem/out.geojson")
        return text

except ImportError:
    pass

try:
    from shapely.geometry import MultiLineString, MultiPoint, MultiPolygon

    SHAPES = {
        "points": MultiPoint,
        "lines": MultiLineString,
        "polygons": lambda held: MultiPolygon([(rings[0], rings[1:]) for rings in held]),
    }

    @way("read", "libmvt.read and shapely")
    def read_shapely(tile, _):
        [layer] = libmvt.read(tile).layers
        return [(feature.id, feature.attributes, SHAPES[feature.kind](feature.geometry)) for feature in layer.features]

except ImportError:
    pass


def check(tile, held):
    """The ways that give lists of points agree."""
    if ("read", "protobuf") in WAYS:
        assert read_protobuf(tile, held) == read(tile, held)
        assert libmvt.rewrite(write_protobuf(tile, held)) == libmvt.rewrite(tile)
    if ("read", "GDAL") in WAYS:
        assert len(read_gdal(tile, held)) == len(read(tile, held))


def main():
    rounds = int(sys.argv[1]) if len(sys.argv) > 1 else 5
    for name, tile in tiles().items():
        held = libmvt.read(tile)
        check(tile, held)
        best = dict.fromkeys(WAYS, math.inf)
        for _ in range(rounds):
            for key, function in WAYS.items():
                start = time.process_time()
                function(tile, held)
                best[key] = min(best[key], time.process_time() - start)
        print("%s, %d kB" % (name, len(tile) // 1000))
        for (does, by), seconds in best.items():
            print("  %-7s %-22s %6.0f ms" % (does, by, 1000 * seconds))


main()
