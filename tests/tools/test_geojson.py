"""GeoJSON of tiles, layers of GeoJSON, and the commands `mvt-geojson` and `mvt-tile`. Expected values come from RFC 7946,
from Web Mercator, and from GDAL where it is there."""

import decimal
import gzip
import http.server
import json
import math
import shutil
import subprocess
import sys
import threading
import zlib
from pathlib import Path

import pytest
from hypothesis import HealthCheck, given, settings
from hypothesis import strategies as make

import libmvt

TOP = Path(__file__).resolve().parents[2]
sys.path += [str(TOP / "tests" / "tools" / "audit")]
import archives  # noqa: E402
from common import make_mbtiles, make_tree  # noqa: E402

TILES = TOP / "fixtures" / "tiles"
TOWN = (TILES / "gdal.mvt").read_bytes()
PLACE = (14, 8192, 8191)
SOURCE = json.loads((TILES / "town.geojson").read_text())


def run(*words, module="geojson", stdin=b"", **how):
    """The status, the output and the lines of errors of a command."""
    command = [sys.executable, "-m", f"mvt_tools.{module}", *map(str, words)]
    done = subprocess.run(command, input=stdin, capture_output=True, timeout=120, **how)
    return done.returncode, done.stdout, done.stderr.decode()


def tile_of(*features, extent=4096, name="a"):
    return libmvt.write(libmvt.Tile([libmvt.Layer(name, extent, list(features))]))


def area(ring):
    return sum(a * d - c * b for (a, b), (c, d) in zip(ring, ring[1:]))


def degrees(x, y, extent=4096, place=PLACE):
    """By the formula as it is usually written."""
    z, left, top = place
    side = 2**z
    latitude = math.atan(math.sinh(math.pi * (1 - 2 * (top + y / extent) / side)))
    return (left + x / extent) / side * 360 - 180, math.degrees(latitude)


NO_PLACES = [
    (31, 0, 0),
    (-1, 0, 0),
    (0, "0", 0),
    (0, 10**400, 0),
    (0, 0, -(10**400)),
    (0, 1 << 63, 0),
    (0.5, 0, 0),
    (0, 0, None),
]


class TestToGeojson:
    def test_the_town_lies_where_it_was_drawn(self):
        found = {each["properties"]["name"]: each for each in libmvt.to_geojson(TOWN, *PLACE)["features"]}
        assert len(found) == len(SOURCE["features"])
        for source in SOURCE["features"]:
            made = found[source["properties"]["name"]]
            properties = dict(source["properties"])
            assert made["layer"] == properties.pop("layer")
            assert made["properties"] == properties
            # A unit of the tile is 5.4e-6 of a degree.
            compare_shapes(source["geometry"], made["geometry"], 5.4e-6)

    def test_points_are_degrees_with_seven_decimals(self):
        tile = tile_of(libmvt.Feature(None, {}, "points", [(0, 0), (4096, 4096), (17, -5)]))
        [made] = libmvt.to_geojson(tile, *PLACE)["features"]
        wanted = [[round(each, 7) for each in degrees(*point)] for point in ((0, 0), (4096, 4096), (17, -5))]
        assert made == {
            "type": "Feature",
            "properties": {},
            "layer": "a",
            "geometry": {"type": "MultiPoint", "coordinates": wanted},
        }

    def test_rings_are_closed_and_go_as_the_rfc_wants(self):
        ring, hole = [(0, 0), (9, 0), (9, 9), (0, 9)], [(2, 2), (2, 4), (4, 4)]
        tile = tile_of(libmvt.Feature(None, {}, "polygons", [[ring, hole]]))
        [made] = libmvt.to_geojson(tile, *PLACE)["features"]
        outer, inner = made["geometry"]["coordinates"]
        assert outer[0] == outer[-1] and inner[0] == inner[-1]
        assert (len(outer), len(inner)) == (5, 4)
        assert area(outer) > 0 > area(inner)

    @settings(deadline=None)
    @given(make.integers(0, 22), make.data())
    def test_neighbours_meet_at_their_edge(self, z, data):
        x, y = (data.draw(make.integers(0, max(0, (1 << z) - 2))) for _ in "xy")
        extents = data.draw(make.tuples(*[make.sampled_from([256, 512, 4096, 8192])] * 2))
        part = data.draw(make.integers(0, 256))
        one, other = (
            tile_of(libmvt.Feature(None, {}, "points", [(across * extent, part * extent // 256)]), extent=extent)
            for across, extent in zip((1, 0), extents)
        )
        positions = [
            libmvt.to_geojson(tile, z, column, y)["features"][0]["geometry"]["coordinates"]
            for tile, column in ((one, x), (other, x + 1))
        ]
        assert positions[0] == positions[1]

    def test_ids_and_numbers(self):
        at = ("points", [(1, 1)])
        made = libmvt.to_geojson(
            tile_of(
                libmvt.Feature((1 << 53) - 1, {"a": libmvt.Float(12.5), "b": libmvt.Sint(-7), "c": True}, *at),
                libmvt.Feature(1 << 53, {"a": math.nan, "b": math.inf, "c": (1 << 64) - 1}, *at),
            ),
            *PLACE,
        )["features"]
        assert [each["id"] for each in made] == [9007199254740991, "9007199254740992"]
        assert made[0]["properties"] == {"a": 12.5, "b": -7, "c": True}
        assert made[1]["properties"] == {"a": None, "b": None, "c": (1 << 64) - 1}
        assert {type(value) for value in made[0]["properties"].values()} == {float, int, bool}

    def test_what_lies_nowhere_is_null(self):
        unknown = tile_of(libmvt.Feature(None, {}, "unknown", [9, 50, 34]))
        flat = tile_of(libmvt.Feature(None, {}, "points", [(1, 1)]), extent=0)
        for tile in (unknown, flat):
            assert libmvt.to_geojson(tile, *PLACE)["features"][0]["geometry"] is None

    def test_far_points_are_at_the_poles(self):
        tile = tile_of(libmvt.Feature(None, {}, "points", [(0, -(2**31) + 1)]), extent=1)
        [made] = libmvt.to_geojson(tile, 0, 0, 0)["features"]
        assert made["geometry"]["coordinates"][1] == 90

    def test_layers_by_name(self):
        assert {each["layer"] for each in libmvt.to_geojson(TOWN, *PLACE, layers=["roads"])["features"]} == {"roads"}
        with pytest.raises(libmvt.NoLayer):
            libmvt.to_geojson(TOWN, *PLACE, layers=["rivers"])

    def test_a_tile_and_its_rows_are_the_same(self):
        wanted = libmvt.to_geojson(TOWN, *PLACE)
        assert libmvt.to_geojson(libmvt.read(TOWN), *PLACE) == wanted
        assert libmvt.to_geojson(libmvt.rows(TOWN), *PLACE) == wanted

    @pytest.mark.parametrize("place", NO_PLACES)
    def test_what_is_no_place(self, place):
        with pytest.raises(ValueError):
            libmvt.to_geojson(TOWN, *place)

    def test_places_beyond_the_world_are_places(self):
        for place in ((0, 1, 0), (30, (1 << 63) - 1, 1 - (1 << 63))):
            assert json.dumps(libmvt.to_geojson(TOWN, *place), allow_nan=False)


class TestInterface:
    def test_shapely_takes_features(self):
        geometry = pytest.importorskip("shapely.geometry", reason="shapely isn't there")
        tile = libmvt.read(TOWN)
        for feature in tile["water"].features:
            made = geometry.shape(feature)
            assert made.is_valid and made.area > 0
        assert geometry.shape(libmvt.Feature(None, {}, "unknown", [1])).is_empty

    def test_a_layer_is_a_collection(self):
        ring = [(0, 0), (9, 0), (9, 9)]
        made = libmvt.Layer("a", 4096, [libmvt.Feature(7, {"b": "c"}, "polygons", [[ring]])]).__geo_interface__
        geometry = {"type": "Polygon", "coordinates": [[*ring, (0, 0)]]}
        feature = {"type": "Feature", "id": 7, "properties": {"b": "c"}, "geometry": geometry}
        assert made == {"type": "FeatureCollection", "features": [feature]}


_POINTS = make.tuples(make.integers(0, 4096), make.integers(0, 4096))
_VALUES = (
    make.text(max_size=5)
    | make.booleans()
    | make.integers(0, (1 << 64) - 1)
    | make.floats(allow_nan=False, allow_infinity=False)
)
_ATTRIBUTES = make.dictionaries(make.text(max_size=3), _VALUES, max_size=3)
_IDS = make.none() | make.integers(0, (1 << 64) - 1)


def _features(kind, drawn):
    return make.builds(libmvt.Feature, _IDS, _ATTRIBUTES, make.just(kind), drawn)


def _moves(points):
    return all(one != other for one, other in zip(points, points[1:]))


@make.composite
def _squares(draw):
    (x, y), side = draw(_POINTS), draw(make.integers(1, 99))
    return [[(x, y), (x + side, y), (x + side, y + side), (x, y + side)]]


_ANY = make.lists(
    _features("points", make.lists(_POINTS, min_size=1, max_size=4, unique=True))
    | _features("lines", make.lists(make.lists(_POINTS, min_size=2, max_size=5).filter(_moves), min_size=1, max_size=2))
    | _features("polygons", make.lists(_squares(), min_size=1, max_size=2)),
    max_size=4,
)
_POSITIONS = make.lists(make.floats(-180, 180, width=32), min_size=2, max_size=3)
_RINGS = make.lists(make.lists(_POSITIONS, max_size=6), max_size=3)
_GEOMETRIES = make.recursive(
    make.none()
    | make.builds(dict, type=make.just("Point"), coordinates=_POSITIONS)
    | make.builds(dict, type=make.just("MultiPoint"), coordinates=make.lists(_POSITIONS, max_size=4))
    | make.builds(dict, type=make.just("LineString"), coordinates=make.lists(_POSITIONS, max_size=6))
    | make.builds(dict, type=make.sampled_from(["MultiLineString", "Polygon"]), coordinates=_RINGS)
    | make.builds(dict, type=make.just("MultiPolygon"), coordinates=make.lists(_RINGS, max_size=3)),
    lambda inner: make.builds(dict, type=make.just("GeometryCollection"), geometries=make.lists(inner, max_size=3)),
    max_leaves=4,
)
_PROPERTIES = make.none() | make.dictionaries(
    make.text(), make.none() | _VALUES | make.lists(make.integers()), max_size=3
)
_OBJECTS = make.lists(
    make.builds(dict, type=make.just("Feature"), id=_IDS | make.text(), properties=_PROPERTIES, geometry=_GEOMETRIES),
    max_size=4,
)


NO_GEOJSON = [
    {"type": "Circle"},
    {"type": "FeatureCollection"},
    {"type": "Point", "coordinates": [1]},
    {},
    [5],
    {"type": "Point", "coordinates": [math.nan, 0]},
    {"type": "Polygon", "coordinates": [1]},
    {"type": "LineString", "coordinates": None},
    {"type": "GeometryCollection", "geometries": 5},
    None,
    5,
    True,
    0.5,
    "",
    "{}",
    b"{}",
    '{"type": "Point", "coordinates": [1, 2]}',
    {"type": ["Point"], "coordinates": [1, 2]},
    {"type": {"a": 1}},
    {"type": None},
    {"type": 5},
    *(
        {"type": "Feature", "properties": properties, "geometry": {"type": "Point", "coordinates": [1, 2]}}
        for properties in (5, True, "abc", [1], {"a": {(1, 2): 3}})
    ),
    *(
        {"type": kind, "coordinates": coordinates}
        for kind in ("Point", "MultiPoint", "LineString", "MultiLineString", "Polygon", "MultiPolygon")
        for coordinates in (
            "12",
            {"12": 1, "34": 2},
            {"x": 1},
            None,
            5,
            True,
            [True, False],
            [["1", "2"]],
            ["12", "34"],
            ["1", "2"],
            [{"x": 1, "y": 2}],
            [[[{"0": 1}]]],
            [None, None],
            [[None, 1]],
            [[[[[1]]]]],
            [[1, 2], 5],
            b"12",
            [b"12"],
            [1j, 1j],
        )
    ),
]

# JSON of the words and the numbers that GeoJSON has, and of those that it hasn't.
_WORDS = make.sampled_from(
    [
        "type",
        "coordinates",
        "features",
        "geometry",
        "geometries",
        "properties",
        "id",
        "Feature",
        "FeatureCollection",
        "Point",
        "MultiPoint",
        "LineString",
        "MultiLineString",
        "Polygon",
        "MultiPolygon",
        "GeometryCollection",
        "12",
        "",
        "\ud800",
    ]
)
_LEAVES = (
    make.none()
    | make.booleans()
    | make.floats()
    | make.floats(-180, 180)
    | make.integers(-180, 180)
    | _WORDS
    | make.sampled_from([1e308, -1e308, 10**310, -(10**4000), 1 << 64, -(1 << 64), 0.15, -0.15, 1e-300])
)
_JSON = make.recursive(
    _LEAVES, lambda inner: make.lists(inner, max_size=4) | make.dictionaries(_WORDS, inner, max_size=4), max_leaves=12
)


def _or_any(strategy):
    """What is as it should be, most often."""
    return make.one_of(strategy, strategy, strategy, _JSON)


_PLACES = _or_any(
    make.lists(_or_any(make.floats(-180, 180) | make.sampled_from([0.15, -0.15])), min_size=2, max_size=3)
)
_LINES = _or_any(make.lists(_PLACES, max_size=5))
_AREAS = _or_any(make.lists(_LINES, max_size=3))
_SPOILED = make.builds(
    dict,
    type=_or_any(make.just("Feature")),
    id=_or_any(_IDS),
    properties=_or_any(_PROPERTIES),
    geometry=_or_any(
        make.one_of(
            *(
                make.builds(dict, type=make.just(kind), coordinates=coordinates)
                for kind, coordinates in {
                    "Point": _PLACES,
                    "MultiPoint": _LINES,
                    "LineString": _LINES,
                    "MultiLineString": _AREAS,
                    "Polygon": _AREAS,
                    "MultiPolygon": _or_any(make.lists(_AREAS, max_size=2)),
                }.items()
            )
        )
    ),
)


class TestFromGeojson:
    @settings(suppress_health_check=[HealthCheck.too_slow], deadline=None)
    @given(_ANY, make.integers(0, 14), make.data())
    def test_there_and_back(self, features, z, data):
        x, y = (data.draw(make.integers(0, (1 << z) - 1)) for _ in "xy")
        layer = libmvt.Layer("a", 4096, [each for each in features])
        found = json.loads(json.dumps(libmvt.to_geojson(libmvt.Tile([layer]), z, x, y)))
        made = libmvt.from_geojson(found, z, x, y, name="a")
        # What touches the map's edge from beyond isn't there any more; within the map all is the same.
        if all(y * 4096 + below <= 4096 << z for below in _rows(features)):
            assert made == layer
            assert made.vanished == (0, 0, 0, 0)

    @settings(suppress_health_check=[HealthCheck.too_slow], deadline=None)
    @given(_OBJECTS, make.integers(0, 12), make.data())
    def test_a_valid_tile_of_anything(self, objects, z, data):
        x, y = (data.draw(make.integers(0, (1 << z) - 1)) for _ in "xy")
        layer = libmvt.from_geojson({"type": "FeatureCollection", "features": objects}, z, x, y)
        tile = libmvt.write(libmvt.Tile([layer]))
        libmvt.judge(tile)
        assert libmvt.read(tile)["features"] == layer

    def test_what_vanishes_is_counted(self):
        near = [[0.0, 0.0], [0.00000001, 0.0], [0.00000001, 0.00000001], [0.0, 0.0]]
        large = [[0, 0], [0.01, 0], [0.01, 0.01], [0, 0.01], [0, 0]]
        geometries = [
            {"type": "Polygon", "coordinates": [near]},
            {"type": "Polygon", "coordinates": [large, near]},
            {"type": "LineString", "coordinates": near},
            {"type": "MultiPoint", "coordinates": near},
            None,
        ]
        features = [{"type": "Feature", "id": "x", "properties": {}, "geometry": each} for each in geometries]
        layer = libmvt.from_geojson(features, *PLACE)
        assert [feature.kind for feature in layer.features] == ["polygons", "points"]
        # Three points of each of four, beside the one that is left.
        assert layer.vanished == libmvt.Vanished(points=12, parts=3, features=3, ids=2)

    def test_rings_that_go_the_wrong_way_are_turned(self):
        outer = [[0, 0], [0, 0.01], [0.01, 0.01], [0.01, 0], [0, 0]]
        hole = [[0.002, 0.002], [0.004, 0.002], [0.004, 0.004], [0.002, 0.002]]
        for rings in ([outer, hole], [outer[::-1], hole[::-1]]):
            layer = libmvt.from_geojson({"type": "Polygon", "coordinates": rings}, *PLACE)
            libmvt.judge(libmvt.write(libmvt.Tile([layer])))
            [[first, second]] = layer.features[0].geometry
            assert area([*first, first[0]]) > 0 > area([*second, second[0]])

    def test_properties_and_ids(self):
        properties = {"a": None, "b": [1, "é"], "c": {"d": 1}, "e": 1 << 70, "f": "\ud800", "g": -5}
        feature = {"type": "Feature", "id": "9007199254740993", "properties": properties}
        layer = libmvt.from_geojson({**feature, "geometry": {"type": "Point", "coordinates": [0, 0, 5]}}, *PLACE)
        [made] = layer.features
        assert made.id == 9007199254740993
        assert made.attributes == {"b": '[1, "é"]', "c": '{"d": 1}', "e": 2.0**70, "f": "\ufffd", "g": -5}
        libmvt.judge(libmvt.write(libmvt.Tile([layer])))

    def test_latitudes_beyond_the_map_are_at_its_edge(self):
        layer = libmvt.from_geojson({"type": "MultiPoint", "coordinates": [[0, 90], [0, -90]]}, 0, 0, 0)
        assert layer.features[0].geometry == [(2048, 0), (2048, 4096)]

    def test_shapely_is_taken(self):
        geometry = pytest.importorskip("shapely.geometry", reason="shapely isn't there")
        layer = libmvt.from_geojson([geometry.Point(0, 0), geometry.box(0, 0, 0.01, 0.01)], *PLACE)
        assert [feature.kind for feature in layer.features] == ["points", "polygons"]

    @pytest.mark.parametrize("what", NO_GEOJSON, ids=lambda what: ascii(what)[:60])
    def test_what_is_no_geojson(self, what):
        with pytest.raises(ValueError):
            libmvt.from_geojson(what, *PLACE)

    @pytest.mark.parametrize("place", NO_PLACES)
    def test_what_is_no_place(self, place):
        with pytest.raises(ValueError):
            libmvt.from_geojson([], *place)

    @pytest.mark.parametrize("extent", [0, -1, 1 << 32, 10**400])
    def test_what_is_no_extent(self, extent):
        with pytest.raises(ValueError):
            libmvt.from_geojson([], 0, 0, 0, extent)

    @pytest.mark.parametrize("far", [179, 1e308, -1e308, 10**309, -(10**4000)])
    def test_too_far_from_the_tile(self, far):
        for place in ((30, 0, 0), (30, 0, 1 << 29)):
            with pytest.raises(libmvt.OutOfRange):
                libmvt.from_geojson({"type": "Point", "coordinates": [far, 0]}, *place)

    @pytest.mark.parametrize("kind", ["MultiPoint", "LineString", "MultiLineString", "Polygon"])
    def test_too_far_from_one_another(self, kind):
        """Each position is less than 2^31 units from the tile, and the second one more than that from the first."""
        ends = [[-0.15, 0], [0.15, 0], [0.15, 0.1]]
        drawn = {
            "MultiPoint": ends,
            "LineString": ends,
            "MultiLineString": [ends[:1] * 2, ends],
            "Polygon": [[*ends, ends[0]]],
        }
        place = (30, 1 << 29, 1 << 29)
        for each in ends:
            libmvt.from_geojson({"type": "Point", "coordinates": each}, *place)
        with pytest.raises(libmvt.OutOfRange):
            libmvt.from_geojson({"type": kind, "coordinates": drawn[kind]}, *place)

    def test_numbers_of_any_kind_are_positions(self):
        numpy = pytest.importorskip("numpy", reason="numpy isn't there")
        wanted = libmvt.from_geojson(
            {"type": "MultiPoint", "coordinates": [[1, 2], [3.5, 4.5]]}, *(numpy.int64(each) for each in (0, 0, 0))
        )
        given = numpy.array([[1, 2], [3.5, 4.5]], "f4")
        for coordinates in (
            given,
            given.tolist(),
            [tuple(map(decimal.Decimal, map(str, each))) for each in given.tolist()],
        ):
            assert libmvt.from_geojson({"type": "MultiPoint", "coordinates": coordinates}, 0, 0, 0) == wanted

    def test_large_properties_and_ids(self):
        at = {"type": "Point", "coordinates": [0, 0]}
        properties = {"a": 10**400, "b": -(10**400), "c": 10**5000}
        for id in (10**5000, -1, 1 << 64, 1e300, True, [[[]]], {"a": 1}, "1" * 5000):
            layer = libmvt.from_geojson({"type": "Feature", "id": id, "properties": properties, "geometry": at}, *PLACE)
            assert layer.features[0].attributes == {"a": math.inf, "b": -math.inf, "c": math.inf}
            assert (layer.features[0].id, layer.vanished.ids) == (None, 1)

    @settings(max_examples=500, suppress_health_check=list(HealthCheck), deadline=None)
    @given(
        _JSON | make.lists(_SPOILED, max_size=3) | _SPOILED,
        make.sampled_from([(0, 0, 0), PLACE, (30, 1 << 29, 1 << 29)]),
    )
    def test_any_json_is_a_layer_or_refused(self, given, place):
        try:
            layer = libmvt.from_geojson(given, *place)
        except (ValueError, libmvt.OutOfRange):
            return
        libmvt.judge(libmvt.write(libmvt.Tile([layer])))


def _rows(features):
    """The lowest row of each feature."""
    for feature in features:
        parts = feature.geometry if feature.kind == "points" else sum(feature.geometry, [])
        yield max(y for _, y in (parts if feature.kind != "polygons" else sum(parts, [])))


@pytest.fixture(scope="module")
def stores(tmp_path_factory):
    """The town's tile at its place, in each kind of store, packed in several ways."""
    room = tmp_path_factory.mktemp("stores")
    tiles = {PLACE: gzip.compress(TOWN), (0, 0, 0): TOWN, (1, 0, 0): zlib.compress(TOWN)}
    make_mbtiles(room / "a.mbtiles", tiles)
    make_tree(room / "tree", tiles)
    (room / "list.txt").write_text("".join(f"tree/{z}/{x}/{y}.mvt\n" for z, x, y in tiles))
    (room / "a.pmtiles").write_bytes(archives.archive({PLACE: gzip.compress(TOWN)}, packed=2))
    return room


class Served(http.server.BaseHTTPRequestHandler):
    """A TileJSON of zoom 14, and the town's tile in gzip."""

    def do_GET(self):
        said = {"tiles": ["{z}/{x}/{y}.pbf"], "minzoom": 14, "maxzoom": 14}
        contents = {"/tiles.json": json.dumps(said).encode(), "/14/8192/8191.pbf": gzip.compress(TOWN)}
        body = contents.get(self.path, b"")
        self.send_response(200 if body else 404)
        if self.path.endswith(".pbf"):
            self.send_header("Content-Encoding", "gzip")
        self.send_header("Content-Length", str(len(body)))
        self.end_headers()
        self.wfile.write(body)

    def log_message(self, *_):
        pass


@pytest.fixture(scope="module")
def server():
    with http.server.ThreadingHTTPServer(("127.0.0.1", 0), Served) as serving:
        threading.Thread(target=serving.serve_forever, daemon=True).start()
        yield f"http://127.0.0.1:{serving.server_port}"
        serving.shutdown()


WANTED = json.dumps(libmvt.to_geojson(TOWN, *PLACE), sort_keys=True)
# A ring of negative area; a layer without a name; and that ring in a layer of a long name.
TURNED = (TILES / "broken/22-FirstRing.mvt").read_bytes()
NAMELESS = bytes.fromhex("1a027802")
LONG_NAMED = b"\x1a\xea\x1f\x78\x02\x0a\xd6\x1f" + b"b" * 4054 + TURNED[7:]


def refused(tile):
    with pytest.raises(libmvt.Refused) as caught:
        libmvt.judge(tile)
    return caught.value


class TestCommands:
    def test_out_of_each_store(self, stores):
        for name in ("a.mbtiles", "tree", "list.txt", "a.pmtiles"):
            status, out, errors = run(stores / name, "14/8192/8191")
            assert (status, errors) == (0, ""), name
            assert json.dumps(json.loads(out), sort_keys=True) == WANTED, name
            assert run(stores / name, "14/8192/8191", module="tile") == (0, TOWN, "")
            status, lying, errors = run(stores / name, "14/8192/8191", "--raw", module="tile")
            assert (status, gzip.decompress(lying), errors) == (0, TOWN, "")

    def test_from_a_server(self, server):
        for address in (f"{server}/tiles.json", server + "/{z}/{x}/{y}.pbf"):
            status, out, errors = run(address, "14/8192/8191")
            assert (status, errors) == (0, "")
            assert json.dumps(json.loads(out), sort_keys=True) == WANTED
            got, out, errors = run(address, "14/0/0")
            assert (got, out, errors.count("\n")) == (3, b"", 1)

    @pytest.mark.parametrize("packed, name", [(3, "brotli"), (4, "zstandard")])
    def test_out_of_an_archive_of_each_compression(self, packed, name, tmp_path):
        module = pytest.importorskip(name, reason=f"{name} isn't there")
        content = module.compress(TOWN)
        path = tmp_path / "a.pmtiles"
        path.write_bytes(archives.archive({PLACE: content}, packed=packed))
        assert run(path, "14/8192/8191", module="tile") == (0, TOWN, "")
        assert run(path, "14/8192/8191", "--raw", module="tile") == (0, content, "")

    def test_from_a_file_and_standard_input(self, tmp_path):
        packed = [TOWN, gzip.compress(TOWN), zlib.compress(TOWN)]
        try:
            packed.append(pytest.importorskip("zstandard").compress(TOWN))
        except pytest.skip.Exception:
            pass
        for content in packed:
            (tmp_path / "a.mvt").write_bytes(content)
            for words, stdin in (([tmp_path / "a.mvt"], b""), ([], content), (["-"], content)):
                status, out, errors = run(*words, "14/8192/8191", stdin=stdin)
                assert (status, errors) == (0, "")
                assert json.dumps(json.loads(out), sort_keys=True) == WANTED

    def test_one_feature_a_line(self):
        _, out, _ = run("14/8192/8191", "--seq", "--layer", "roads", "--layer", "water", stdin=TOWN)
        features = [json.loads(line) for line in out.splitlines()]
        assert [each["layer"] for each in features] == ["roads"] * 2 + ["water"] * 2

    def test_units_precision_and_tippecanoe(self):
        _, out, _ = run("--units", "tile", "--seq", stdin=tile_of(libmvt.Feature(None, {}, "points", [(5, 9)])))
        assert json.loads(out)["geometry"] == {"type": "Point", "coordinates": [5, 9]}
        _, out, _ = run("14/8192/8191", "--precision", "2", "--tippecanoe", "--layer", "places", stdin=TOWN)
        made = json.loads(out)["features"][0]
        assert made["tippecanoe"] == {"layer": "places", "minzoom": 14, "maxzoom": 14} and "layer" not in made
        assert made["geometry"]["coordinates"] == [round(each, 2) for each in made["geometry"]["coordinates"]]

    def test_a_refused_tile_prints_nothing(self):
        status, out, errors = run("0/0/0", stdin=(TILES / "broken" / "20-ZeroSegment.mvt").read_bytes())
        assert (status, out) == (1, b"")
        assert errors.startswith("mvt-geojson: layer 0 feature 0 at 4: 20 ZeroSegment: ") and errors.count("\n") == 1
        assert errors.count("A line goes nowhere") == 1

    def test_what_is_null_is_told_once(self):
        feature = libmvt.Feature(None, {"a": math.nan}, "points", [(1, 1)])
        status, out, errors = run("0/0/0", stdin=tile_of(feature, feature))
        assert (status, errors.count("\n")) == (0, 1) and "null" in errors
        assert [each["properties"] for each in json.loads(out)["features"]] == [{"a": None}] * 2

    @pytest.mark.parametrize(
        "words, status",
        [
            ([], 2),
            (["a", "b", "0/0/0"], 2),
            (["0/0/0", "--precision", "x"], 2),
            (["0/0/0", "--layer", "rivers"], 2),
            (["--units", "tile", "--precision", "3"], 2),
            (["/nowhere", "0/0/0"], 3),
            (["/dev", "0/0/0"], 3),
            (["/dev/zero", "0/0/0"], 3),
            (["/nowhere.mbtiles", "0/0/0"], 3),
            (["a\x1b[31m", "0/0/0"], 3),
            (["http://127.0.0.1:9/{z}/{x}/{y}", "0/0/0"], 3),
            (["/nowhere.pmtiles", "0/0/0"], 3),
        ],
    )
    def test_what_fails_is_one_line(self, words, status):
        got, out, errors = run(*words, stdin=TOWN)
        assert (got, out, errors.count("\n")) == (status, b"", 1), errors
        assert "\x1b" not in errors and "Traceback" not in errors

    def test_what_mending_helps_says_so(self):
        for tile, helps in ((TURNED, True), (TURNED + NAMELESS, False), (NAMELESS, False), (LONG_NAMED, True)):
            status, out, errors = run("0/0/0", stdin=tile)
            assert (status, out, errors.count("\n")) == (1, b"", 1), errors
            assert errors.endswith(": mvt mend mends this\n") == helps, errors

    def test_mended(self, tmp_path):
        (tmp_path / "a.mvt").write_bytes(gzip.compress(TURNED))
        mended = libmvt.mend(TURNED).bytes
        for name in ("geojson", "tile"):
            said = f"mvt-{name}: mended: TurnedRing 1\n"
            wanted = mended if name == "tile" else json.dumps(libmvt.to_geojson(mended, 0, 0, 0), sort_keys=True)
            for words, stdin in ((["-", "0/0/0"], TURNED), ([tmp_path / "a.mvt", "0/0/0"], b"")):
                status, out, errors = run(*words, "--mend", stdin=stdin, module=name)
                assert (status, errors) == (0, said)
                assert (out if name == "tile" else json.dumps(json.loads(out), sort_keys=True)) == wanted
            status, out, errors = run("-", "0/0/0", "--mend", stdin=TOWN, module=name)
            assert (status, errors) == (0, "")
            status, out, errors = run("-", "0/0/0", "--mend", stdin=TURNED + NAMELESS, module=name)
            assert (status, out, errors) == (1, b"", f"mvt-{name}: {refused(TURNED + NAMELESS)}\n")
        assert run("-", "0/0/0", "--mend", stdin=TOWN, module="tile")[1] == libmvt.rewrite(TOWN)
        assert run("-", "0/0/0", "--mend", "--raw", stdin=TURNED, module="tile")[:2] == (2, b"")

    def test_no_tile_there_and_no_place(self, stores):
        for name in ("a.mbtiles", "tree", "list.txt", "a.pmtiles"):
            for words, status in ((["3/3/3"], 3), ([], 2)):
                got, out, errors = run(stores / name, *words, module="tile")
                assert (got, out, errors.count("\n")) == (status, b"", 1), errors

    def test_what_does_not_unpack(self):
        for module in ("geojson", "tile"):
            got, out, errors = run("-", "0/0/0", stdin=gzip.compress(TOWN)[:-5], module=module)
            assert (got, out, errors.count("\n")) == (1, b"", 1)

    def test_no_front_of_a_larger_tile_is_written(self, tmp_path):
        content = b"\x7a" + bytes(libmvt.LIMIT + (3 << 20))
        (tmp_path / "plain.mvt").write_bytes(content)
        (tmp_path / "packed.mvt").write_bytes(gzip.compress(content, 1))
        make_tree(tmp_path / "tree", {(0, 0, 0): content})
        for words in (
            ["plain.mvt"],
            ["plain.mvt", "--raw"],
            ["packed.mvt"],
            ["tree", "0/0/0"],
            ["tree", "0/0/0", "--raw"],
        ):
            got, out, errors = run(*words, module="tile", cwd=tmp_path)
            assert (got, out, errors.count("\n")) == (1, b"", 1), errors
            assert "bytes, which no tile has" in errors
        assert run("packed.mvt", "--raw", module="tile", cwd=tmp_path)[:2] == (
            0,
            (tmp_path / "packed.mvt").read_bytes(),
        )

    def test_a_reader_who_is_gone_ends_it_silently(self):
        feature = libmvt.Feature(None, {"a": "b" * 1000}, "points", [(1, 1)])
        words = f"{sys.executable} -m mvt_tools.geojson 0/0/0 --seq | head -c 10"
        done = subprocess.run(["bash", "-c", words], input=tile_of(*[feature] * 2000), capture_output=True, timeout=60)
        assert (len(done.stdout), done.stderr) == (10, b"")

    def test_a_full_output_is_one_line(self):
        with open("/dev/full", "wb") as full:
            command = [sys.executable, "-m", "mvt_tools.geojson", "14/8192/8191"]
            done = subprocess.run(command, input=TOWN, stdout=full, stderr=subprocess.PIPE, timeout=60)
        assert done.returncode == 3 and done.stderr.count(b"\n") == 1

    def test_nothing_of_the_current_folder_is_imported(self, tmp_path):
        (tmp_path / "json.py").write_text("raise SystemExit(77)")
        (tmp_path / "sqlite3.py").write_text("raise SystemExit(77)")
        for module in ("geojson", "tile"):
            assert run("-", "14/8192/8191", stdin=TOWN, module=module, cwd=tmp_path)[0] == 0

    def test_many_features_take_the_memory_of_their_rows(self):
        # Their GeoJSON has some 13 MB, which is nowhere at once.
        builder = libmvt.Builder().layer("a")
        for number in range(100_000):
            builder.feature("points", id=number).point(1, 1)
        tile = builder.finish()
        bound = f"ulimit -v 300000; exec {sys.executable} -m mvt_tools.geojson 0/0/0 --seq | wc -l"
        done = subprocess.run(["bash", "-c", bound], input=tile, capture_output=True, timeout=100)
        assert (done.stdout.strip(), done.stderr) == (b"100000", b"")


@pytest.mark.skipif(shutil.which("ogr2ogr") is None, reason="ogr2ogr isn't there")
@pytest.mark.parametrize("name", ["places", "roads", "water"])
def test_gdal_reads_the_same(name, tmp_path):
    """Tiles that GDAL writes of a layer of the example, read by GDAL and by `mvt-geojson`."""
    source, written = tmp_path / f"{name}.geojson", tmp_path / "written"
    features = [each for each in SOURCE["features"] if each["properties"]["layer"] == name]
    source.write_text(json.dumps({**SOURCE, "features": features}))
    gdal("-f", "MVT", written, source, "-dsco", "MINZOOM=13", "-dsco", "MAXZOOM=14")
    compared = [compare_with_gdal(path, tmp_path) for path in sorted(written.glob("*/*/*.pbf"))]
    assert any(compared)


def made_feature(number):
    """A point, a line or a polygon at whole units of the tile, in degrees."""
    x, y = number % 100 * 40, number // 100 * 40

    def at(*points):
        return [[round(each, 9) for each in degrees(x + right, y + down)] for right, down in points]

    around = [(0, 0), (0, 30), (30, 30), (30, 0), (0, 0)]
    geometries = [
        {"type": "Point", "coordinates": at((5, 7))[0]},
        {"type": "LineString", "coordinates": at((0, 0), (9, 3), (20, 31))},
        {"type": "Polygon", "coordinates": [at(*around), at((5, 5), (9, 5), (9, 9), (5, 5))]},
    ]
    properties = {"n": number, "name": f"place {number % 70}", "height": number / 4}
    return {"type": "Feature", "id": number, "properties": properties, "geometry": geometries[number % 3]}


@pytest.mark.skipif(shutil.which("ogr2ogr") is None, reason="ogr2ogr isn't there")
def test_ten_thousand_features_are_read_back_by_gdal(tmp_path):
    made = [made_feature(number) for number in range(10_000)]
    layer = libmvt.from_geojson({"type": "FeatureCollection", "features": made}, *PLACE)
    assert (len(layer), layer.vanished) == (10_000, (0, 0, 0, 0))
    (tmp_path / "a.mvt").write_bytes(libmvt.write(libmvt.Tile([layer])))
    place = [
        word
        for each in (*(f"{name}={number}" for name, number in zip("ZXY", PLACE)), "CLIP=NO")
        for word in ("-oo", each)
    ]
    out = tmp_path / "out.geojson"
    gdal(
        "-f",
        "GeoJSON",
        "-lco",
        "RFC7946=YES",
        "-lco",
        "COORDINATE_PRECISION=9",
        out,
        f"MVT:{tmp_path / 'a.mvt'}",
        *place,
    )
    found = json.loads(out.read_text())["features"]
    assert len(found) == len(made)
    for theirs, ours in zip(found, made):
        assert theirs["properties"].items() >= {**ours["properties"], "mvt_id": ours["id"]}.items()
        compare_shapes(theirs["geometry"], ours["geometry"], 2e-9)


def gdal(*words):
    subprocess.run(["ogr2ogr", *map(str, words)], check=True, capture_output=True, timeout=60)


def compare_with_gdal(path, room):
    """Whether both read the tile; GDAL also writes some that are refused."""
    z, x, y = (int(part) for part in path.with_suffix("").parts[-3:])
    plain, out = room / "plain.mvt", room / "out.geojson"
    plain.write_bytes(gzip.decompress(path.read_bytes()))
    out.unlink(missing_ok=True)
    status, made, errors = run(path, f"{z}/{x}/{y}")
    if status == 1:
        return False
    assert (status, errors) == (0, "")
    place = [word for each in (f"X={x}", f"Y={y}", f"Z={z}", "CLIP=NO") for word in ("-oo", each)]
    gdal("-f", "GeoJSON", "-lco", "RFC7946=YES", "-lco", "COORDINATE_PRECISION=9", out, f"MVT:{plain}", *place)
    theirs, ours = json.loads(out.read_text())["features"], json.loads(made)["features"]
    assert len(theirs) == len(ours)
    for one, other in zip(theirs, ours):
        assert one["properties"].items() >= other["properties"].items()
        compare_shapes(one["geometry"], other["geometry"])
    return True


def compare_shapes(theirs, ours, most=1e-6):
    """GDAL also calls one part several."""
    assert theirs["type"].replace("Multi", "") == ours["type"].replace("Multi", "")
    lists = [list(flat(each["coordinates"])) for each in (theirs, ours)]
    assert len(lists[0]) == len(lists[1])
    for one, other in zip(*lists):
        wanted, found = (sorted(map(tuple, each)) for each in (set(map(tuple, one)), set(map(tuple, other))))
        assert len(wanted) == len(found)
        assert all(abs(a - b) < most for p, q in zip(wanted, found) for a, b in zip(p, q))
        assert (area(one) > 0) == (area(other) > 0) or not theirs["type"].endswith("Polygon")


def flat(coordinates):
    """The innermost lists of positions."""
    if isinstance(coordinates[0], (int, float)):
        yield [coordinates]
    elif isinstance(coordinates[0][0], (int, float)):
        yield coordinates
    else:
        for each in coordinates:
            yield from flat(each)
