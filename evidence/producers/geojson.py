#!/usr/bin/env python3
"""GeoJSON of tiles by mvt beside that of ogr2ogr: geojson.py FOLDER..

Each FOLDER has tiles {z}/{x}/{y}.pbf or {z}-{x}-{y}.mvt, uncompressed. Of each accepted tile both make GeoJSON as RFC 7946
has it, ogr2ogr by its function of GDAL's module. The same are the number of features, their attributes, how many positions
each part has and where they lie, to a millionth of a degree, and which way a ring goes. Wants `mvt` and python3-gdal. The
last line of a folder counts what differs, by kind. The status is 1 where anything does.

Not compared is what GDAL writes otherwise: a number of single precision with seven digits, a meridian of 180 degrees on the
other side of the map, and tiles beyond the world, such as 0/1/0, which it reads and doesn't translate.
"""

import json
import re
import sys
from collections import Counter
from pathlib import Path

import libmvt
from osgeo import gdal

gdal.UseExceptions()
gdal.PushErrorHandler("CPLQuietErrorHandler")
MOST = 1e-6
# A ring without area goes neither way.
FLAT = 1e-9
PLACE = re.compile(r"(?:^|/)(\d+)[/-](\d+)[/-](\d+)\.(?:pbf|mvt)$")
OUT = "/vsimem/out.geojson"


def by_gdal(tile, place, layer):
    """The features of a layer as `ogr2ogr -f GeoJSON` writes them."""
    gdal.FileFromMemBuffer("/vsimem/tile.mvt", tile)
    words = [f"{name}={number}" for name, number in zip("ZXY", place)] + ["CLIP=NO"]
    held = gdal.OpenEx("MVT:/vsimem/tile.mvt", gdal.OF_VECTOR, open_options=words)
    options = ["-f", "GeoJSON", "-lco", "RFC7946=YES", "-lco", "COORDINATE_PRECISION=9", layer]
    gdal.VectorTranslate(OUT, held, options=options)
    file = gdal.VSIFOpenL(OUT, "rb")
    gdal.VSIFSeekL(file, 0, 2)
    size = gdal.VSIFTellL(file)
    gdal.VSIFSeekL(file, 0, 0)
    text = gdal.VSIFReadL(1, size, file)
    gdal.VSIFCloseL(file)
    gdal.Unlink(OUT)
    return json.loads(text)["features"]


def parts(geometry):
    """The innermost lists of positions."""
    if geometry is None:
        return
    waiting = [geometry["coordinates"]]
    while waiting:
        each = waiting.pop()
        if isinstance(each[0], (int, float)):
            yield [each]
        elif isinstance(each[0][0], (int, float)):
            yield each
        else:
            waiting += reversed(each)


def area(ring):
    return sum(a * d - c * b for (a, b), (c, d) in zip(ring, ring[1:]))


def turned(ring):
    """A ring from its least position on, so that rings which begin elsewhere are the same."""
    least = min(range(len(ring) - 1), key=lambda at: tuple(round(each, 6) for each in ring[at]))
    return ring[least:-1] + ring[: least + 1]


def difference(theirs, ours):
    """In a word what two features don't share; nothing where they are the same."""
    properties = {key: value for key, value in theirs["properties"].items() if key != "mvt_id" and value is not None}
    if not is_same(properties, {key: value for key, value in ours["properties"].items() if value is not None}):
        return "attributes"
    one, other = list(parts(theirs["geometry"])), list(parts(ours["geometry"]))
    is_area = (ours["geometry"] or {}).get("type", "").endswith("Polygon")
    if [len(each) for each in one] != [len(each) for each in other]:
        return "positions or parts"
    for left, right in zip(one, other):
        if is_area:
            is_flat = abs(area(right)) <= FLAT
            if not is_flat and (area(left) > 0) != (area(right) > 0):
                return "direction of a ring"
            left, right = (sorted(left), sorted(right)) if is_flat else (turned(left), turned(right))
        if any(min(abs(a - b), abs(abs(a - b) - 360)) >= MOST for p, q in zip(left, right) for a, b in zip(p, q)):
            return "places"
    return None


def is_same(theirs, ours):
    """GDAL has numbers with 15 digits, and with 7 where they are of single precision."""
    if theirs.keys() != ours.keys():
        return False
    return all(
        one == other or (isinstance(one, (int, float)) and abs(one - other) <= 1e-6 * abs(other))
        for one, other in ((theirs[key], ours[key]) for key in ours)
    )


def compare(folder):
    """How many tiles and features were compared, how many tiles are refused, and what differs."""
    tiles, features, refused, beyond, found, examples = 0, 0, 0, 0, Counter(), {}
    for path in sorted(each for each in Path(folder).rglob("*") if PLACE.search(str(each))):
        place = tuple(map(int, PLACE.search(str(path)).groups()))
        content = path.read_bytes()
        try:
            table = libmvt.rows(content)
        except libmvt.Refused:
            refused += 1
            continue
        if max(place[1:]) >> place[0]:
            beyond += 1
            continue
        tiles += 1
        for layer in (table.text(row.name) for row in table.layers if row.version == 2):
            ours = libmvt.to_geojson(table, *place, layers=[layer], decimals=9)["features"]
            theirs = by_gdal(content, place, layer)
            features += len(ours)
            kinds = ["features"] if len(ours) != len(theirs) else map(difference, theirs, ours)
            for at, kind in enumerate(kinds):
                if kind is not None:
                    found[kind] += 1
                    examples.setdefault(kind, f"{path}, layer {layer}, feature {at}")
    told = ", ".join(f"{kind} {count} (such as {examples[kind]})" for kind, count in found.items()) or "nothing differs"
    print(
        f"{folder}: {tiles:,} tiles, {features:,} features, {refused:,} refused, {beyond:,} beyond the world; {told}",
        flush=True,
    )
    return not found


sys.exit(not all([compare(folder) for folder in sys.argv[1:]]))
