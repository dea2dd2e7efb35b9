"""What is counted of rows, and told of them: runs of equal tiles, places that a zoom doesn't have, and names."""

import contextlib

import pytest
from common import example_tiles
from mvt_tools.audit import summary
from mvt_tools.audit.judging import judged_part
from mvt_tools.audit.report.page import page
from mvt_tools.audit.results import Block, Results
from mvt_tools.stores import Address, State, Store

BROKEN = example_tiles()["20-ZeroSegment"]


class Given(Store):
    """A store of addresses with their contents."""

    kind = "given"

    def __init__(self, tiles, path="/given"):
        self.given, self.path = tiles, path

    def state(self):
        return State(sum(address.tiles for address, _ in self.given), "always")

    def ranges(self, size):
        return iter([0])

    def tiles(self, part):
        return iter(self.given)

    def tile(self, address):
        return next(content for each, content in self.given if each[:3] == address[:3])


@pytest.fixture
def audited(tmp_path):
    """What the results, the summary as JSON, its lines and the page have of a store."""
    with contextlib.ExitStack() as held:

        def audit(tiles):
            store = Given(tiles)
            results = held.enter_context(contextlib.closing(Results(tmp_path)))
            results.begin([store], [store.state()], 100)
            results.add([Block(store.path, 0, judged_part(store, 0))])
            told = summary.told(results, summary.Timed(0, 1, 0, 0), [])
            return results, told, summary.lines(told, []), page(results, {store.path: store}, told)

        yield audit


def test_a_run_counts_as_many_tiles_as_it_has(audited):
    tiles = [(Address(9, 3, 4, tiles=1000), b""), (Address(9, 40, 4, tiles=7), BROKEN), (Address(9, 0, 0), BROKEN)]
    results, told, lines, report = audited(tiles)
    found = results.database.execute("select z, x, y, tiles, verdict from tiles order by tiles").fetchall()
    assert found == [(9, 0, 0, 1, "refused"), (9, 40, 4, 7, "refused"), (9, 3, 4, 1000, "empty")]
    assert told["tiles"] == 1008
    assert (told["verdicts"]["refused"], told["verdicts"]["empty"]) == (8, 1000)
    assert told["notes"] == {"NoLayers": 1000}
    assert told["zooms"] == [{"z": 9, "tiles": 8}]
    assert results.done("/given") == ({0}, 1008)
    assert lines[0] == "1,008 tiles: /given"
    assert results.database.execute("select sum(tiles), sum(broken) from cells").fetchall() == [(1008, 8)]
    assert "8 of 1,008 tiles are broken" in report
    assert "9/40/4, the first of a run of 7 tiles" in report


def test_a_run_of_good_tiles_counts_its_findings(audited):
    from common import EVIDENCE

    _, told, _, _ = audited([(Address(3, 1, 1, tiles=5), EVIDENCE["large-id"])])
    assert told["with_findings"] == 5
    assert told["findings"][0]["tiles"] == 5
    assert told["findings"][0]["example"] == {
        "store": "/given",
        "z": 3,
        "x": 1,
        "y": 1,
        "name": None,
        "lint": "LargeId layer 0 feature 0",
    }


def test_places_that_their_zoom_does_not_have(audited):
    places = [(0, 1, 0), (1, 0, 300), (3, 99999, 0), (9, 1 << 40, -1), (62, -(1 << 63), (1 << 63) - 1), (12, 4096, 0)]
    tiles = [(Address(*place, "a name"), BROKEN) for place in places] + [
        (Address(1, 1, 1), BROKEN),
        (Address(12, 4095, 4095), BROKEN),
    ]
    results, told, lines, report = audited(tiles)
    assert told["tiles"] == 8
    assert told["beyond_zooms"] == [{"z": z, "tiles": 1} for z in (0, 1, 3, 9, 12, 62)]
    assert "6 tiles stand at places that their zoom doesn't have, by zoom: 0 1, 1 1, 3 1, 9 1, 12 1, 62 1" in lines
    assert "6 tiles stand at places that their zoom doesn't have; they are on no map." in report
    found = {
        row[:3] for row in results.database.execute("select z, x, y, name from tiles where name is not null").fetchall()
    }
    assert found == set(places)
    assert results.database.execute("select z, x, y, tiles, broken from cells").fetchall() == [(12, 255, 255, 1, 1)]
    # maps of the zooms that have a broken tile at a place of theirs
    assert [title for title in ("Zoom 0:", "Zoom 1:", "Zoom 3:", "Zoom 12:") if f"<figcaption>{title}" in report] == [
        "Zoom 1:",
        "Zoom 12:",
    ]


def test_one_place_that_its_zoom_does_not_have(audited):
    _, _, lines, report = audited([(Address(0, 1, 0), BROKEN), (Address(0, 0, 0), BROKEN)])
    assert "1 tile stands at a place that its zoom doesn't have, by zoom: 0 1" in lines


def test_good_places_are_not_spoken_of(audited):
    _, told, lines, report = audited(
        [(Address(0, 0, 0), b""), (Address(30, (1 << 30) - 1, 0), b""), (Address(None, None, None, "a"), b"")]
    )
    assert told["beyond_zooms"] == []
    assert not any("doesn't have" in line for line in lines)
    assert "doesn't have" not in report


def test_names_in_the_summary_are_spelled_and_cut(audited):
    # a layer whose name is a command of terminals, and whose line stands still
    name = b"\x1b]0;owned\x07\n0 refused" + b"x" * 70
    layer = b"\x78\x02\x0a" + bytes([len(name)]) + name + b"\x12\x0a\x18\x02\x22\x06\x09\x04\x04\x0a\x00\x00"
    from common import EVIDENCE

    tiles = [(Address(0, 0, 0), b"\x1a" + bytes([len(layer)]) + layer)]
    tiles += [(Address(None, None, None, "\x1b[2J" + "y" * 1000), EVIDENCE["large-id"])]
    _, told, lines, _ = audited(tiles)
    assert told["layers"][0]["layer_name"] == name.decode()
    assert all(line.isprintable() for line in lines)
    assert any(r"by layer: \x1b]0;owned\x07\x0a0 refused" in line for line in lines)
    assert any("LargeId in \\x1b[2J" + "y" * 92 + "…" in line for line in lines)
