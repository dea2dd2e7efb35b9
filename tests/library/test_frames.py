"""Frames of numpy, and frames of geopandas where it is there. Expected values are by hand, or those of plain objects."""

import json
import math
import warnings
from pathlib import Path

import pytest

import libmvt

TILES = Path(__file__).resolve().parents[2] / "fixtures" / "tiles"
numpy = pytest.importorskip("numpy", reason="numpy isn't there")
PLACE = (14, 8192, 8191)
RING, HOLE = [(0, 0), (10, 0), (10, 10), (0, 10)], [(2, 2), (2, 4), (4, 4), (4, 2)]


def frame_of(*features, extent=4096, **words):
    """The frame of a layer of these features, by way of a tile."""
    tile = libmvt.write(libmvt.Tile([libmvt.Layer("first", 4096, []), libmvt.Layer("a", extent, list(features))]))
    return libmvt.rows(tile).frame("a", **words)


def point(**attributes):
    return libmvt.Feature(None, attributes, "points", [(1, 2)])


def columns(*attributes):
    return frame_of(*(point(**each) for each in attributes)).columns


class TestColumns:
    @pytest.mark.parametrize(
        "values, kind, wanted",
        [
            (["x", "", "x"], object, ["x", "", "x"]),
            ([True, False], bool, [True, False]),
            ([1, libmvt.Int(-2), libmvt.Sint(-3)], "int64", [1, -2, -3]),
            ([1, (1 << 64) - 1], "uint64", [1, (1 << 64) - 1]),
            ([1.5, libmvt.Float(0.25), 2], float, [1.5, 0.25, 2.0]),
            ([-1, (1 << 64) - 1], object, [-1, (1 << 64) - 1]),
            ([1.5, (1 << 53) + 1], object, [1.5, (1 << 53) + 1]),
            ([1, "x", True, 2.5], object, [1, "x", True, 2.5]),
        ],
    )
    def test_of_values(self, values, kind, wanted):
        column = columns(*({"k": value} for value in values))["k"]
        assert column.dtype == kind and column.tolist() == wanted
        assert [type(each) for each in column.tolist()] == [type(each) for each in wanted]

    def test_where_some_features_have_none(self):
        found = columns({"text": "x", "truth": True, "whole": 7, "large": 1 << 60, "real": 0.5}, {})
        assert {key: column.dtype for key, column in found.items()} == {
            "text": object,
            "truth": object,
            "whole": float,
            "large": object,
            "real": float,
        }
        assert [found[key].tolist() for key in ("text", "truth", "large")] == [
            ["x", None],
            [True, None],
            [1 << 60, None],
        ]
        assert all(found[key][0] == value and math.isnan(found[key][1]) for key, value in (("whole", 7), ("real", 0.5)))

    def test_of_some_keys(self):
        feature = point(a=1, b=2)
        assert list(frame_of(feature, keys=["b", "c"]).columns) == ["b"]

    def test_many_keys_of_many_features_are_refused_and_some_of_them_made(self):
        features = [point(**{f"k{at}": 1}) for at in range(9000)]
        with pytest.raises(MemoryError, match="keys"):
            frame_of(*features)
        assert frame_of(*features, keys=["k5"]).columns["k5"][5] == 1

    def test_a_nan_and_an_infinity(self):
        column = columns({"k": math.inf}, {"k": math.nan})["k"]
        assert column[0] == math.inf and math.isnan(column[1])

    def test_the_values_are_those_of_plain_objects(self):
        for name in ("gdal", "postgis"):
            content = (TILES / f"{name}.mvt").read_bytes()
            for layer in libmvt.read(content):
                frame = libmvt.rows(content).frame(layer.name)
                assert len(frame) == len(layer)
                for at, feature in enumerate(layer):
                    found = {key: column[at] for key, column in frame.columns.items() if column[at] is not None}
                    assert feature.attributes.items() <= found.items()
                    assert feature.id == (int(frame.ids[at]) if frame.has_id[at] else None)


class TestFrames:
    def test_shapes(self):
        lines = [[(0, 0), (5, 5)], [(1, 1), (2, 2), (3, 1)]]
        shapes = frame_of(
            libmvt.Feature(1, {}, "polygons", [[RING, HOLE], [RING]]),
            libmvt.Feature(None, {}, "lines", lines),
            libmvt.Feature(3, {}, "points", [(7, -8), (9, 9)]),
            libmvt.Feature(4, {}, "unknown", [9, 2, 2]),
        ).shapes
        assert shapes.kinds.tolist() == [3, 2, 1, 0]
        assert shapes.parts.tolist() == [0, 3, 5, 6, 6]
        assert shapes.exterior.tolist() == [True, False, True, False, False, False]
        assert shapes.starts.tolist() == [0, 4, 8, 12, 14, 17, 19]
        assert shapes.points[12:].tolist() == [[0, 0], [5, 5], [1, 1], [2, 2], [3, 1], [7, -8], [9, 9]]

    def test_names_and_rows(self):
        tile = libmvt.rows(
            libmvt.write(libmvt.Tile([libmvt.Layer("a", 512, [point(k=1)]), libmvt.Layer("b", 4096, [])]))
        )
        frame = tile.frame(tile.layers[0])
        assert (frame.name, frame.extent, len(frame)) == ("a", 512, 1)
        assert repr(frame) == "<Frame 'a': 1 features, columns k>"
        assert len(tile.frame("b")) == 0 and tile.frame("b").columns == {}
        with pytest.raises(libmvt.NoLayer):
            tile.frame("c")

    def test_rows_that_overlap_too_often_are_refused(self):
        spans = [(0, 0, 1, (0, 0), (0, 1), (0, 0))] * 3000
        rows = libmvt.Rows.from_arrays(
            layers=numpy.array([(2, 4096, (0, 1), (0, 3000), (0, 0), (0, 0), (0, 0))], libmvt.dtype("layers")),
            features=numpy.array(spans, libmvt.dtype("features")),
            parts=numpy.array([(0, (0, 100_000))], libmvt.dtype("parts")),
            points=numpy.zeros((100_000, 2), int),
            texts=b"a",
        )
        with pytest.raises(MemoryError):
            rows.frame("a")


class TestGeopandas:
    @pytest.fixture(scope="class", autouse=True)
    def there(self):
        with warnings.catch_warnings():
            # It warns of what it imports itself.
            warnings.simplefilter("ignore")
            pytest.importorskip("geopandas", reason="geopandas isn't there")

    def test_it_is_what_to_geojson_makes(self):
        lines = [[(0, 0), (5, 5)], [(1, 1), (2, 2), (3, 1)]]
        features = [
            libmvt.Feature(1, {"k": "x"}, "polygons", [[RING, HOLE], [[(20, 0), (30, 0), (30, 9), (20, 0)]]]),
            libmvt.Feature(2, {"k": "y"}, "polygons", [[RING]]),
            libmvt.Feature(3, {}, "lines", lines),
            libmvt.Feature(4, {}, "lines", lines[:1]),
            libmvt.Feature(5, {}, "points", [(7, -8), (9, 9)]),
            libmvt.Feature(6, {}, "points", [(7, 8)]),
            libmvt.Feature(7, {}, "unknown", [9, 2, 2]),
        ]
        layer = libmvt.Layer("a", 4096, features)
        wanted = libmvt.to_geojson(libmvt.Tile([layer]), *PLACE)["features"]
        for given in (layer, frame_of(*features)):
            found = libmvt.to_geopandas(given, *PLACE)
            assert found.crs == "EPSG:4326" and found.index.tolist() == [1, 2, 3, 4, 5, 6, 7]
            assert found["k"].tolist() == ["x", "y", None, None, None, None, None]
            made = [None if each is None else each.__geo_interface__ for each in found.geometry]
            assert json.loads(json.dumps(made)) == [each["geometry"] for each in wanted]

    def test_polygons_of_many_rings(self):
        """With up to five holes, in one polygon and in several."""
        holes = [[(x, 2), (x, 4), (x + 2, 4), (x + 2, 2)] for x in range(2, 20, 4)]
        square = [(0, 0), (100, 0), (100, 100), (0, 100)]
        several = [[[square, *holes[:count]] for count in range(at % 6 + 1)] for at in range(100)]
        features = [libmvt.Feature(at, {}, "polygons", polygons) for at, polygons in enumerate(several)]
        wanted = libmvt.to_geojson(libmvt.Tile([libmvt.Layer("a", 4096, features)]), *PLACE)["features"]
        made = [each.__geo_interface__ for each in libmvt.to_geopandas(frame_of(*features), *PLACE).geometry]
        assert json.loads(json.dumps(made)) == [each["geometry"] for each in wanted]

    def test_shapes_are_whole(self):
        [made] = libmvt.to_geopandas(frame_of(libmvt.Feature(None, {}, "polygons", [[RING, HOLE]])), *PLACE).geometry
        assert made.is_valid and made.buffer(1).area > made.area > 0

    def test_a_key_of_the_name_geometry(self):
        found = libmvt.to_geopandas(frame_of(point(geometry="x")), *PLACE)
        assert found["geometry"].tolist() == ["x"] and found.geometry.name == "_geometry"

    def test_nothing_and_nowhere(self):
        assert len(libmvt.to_geopandas(libmvt.Layer("a", 4096, []), *PLACE)) == 0
        assert libmvt.to_geopandas(frame_of(point(k=1), extent=0), *PLACE).geometry.tolist() == [None]
        with pytest.raises(ValueError):
            libmvt.to_geopandas(libmvt.Layer("a", 4096, []), 31, 0, 0)
