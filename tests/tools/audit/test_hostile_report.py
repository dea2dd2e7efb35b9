"""What the page shows of tiles that others made: no bytes of files that aren't of the store, and broken features whole."""

import re

import pytest
from common import EVIDENCE, audit
from libmvt import Refused, judge
from mvt_tools.audit.report import pictures
from wire import field, packed, zigzag

SECRET = b"root:$6$secret:19000:0:99999:7:::\n" * 3
# Its first bytes as letters, in the row that the page shows of them.
FIRST = "root:$6$"


def test_no_bytes_of_a_file_that_a_link_leads_to(tmp_path):
    (tmp_path / "secret").write_bytes(SECRET)
    (tmp_path / "elsewhere").mkdir()
    (tmp_path / "elsewhere" / "7.mvt").write_bytes(SECRET)
    folder = tmp_path / "store" / "1" / "0"
    folder.mkdir(parents=True)
    (folder / "0.mvt").symlink_to(tmp_path / "secret")
    (folder.parent / "1").symlink_to(tmp_path / "elsewhere")
    status, _, error = audit(tmp_path / "store", "--into", tmp_path / "audit")
    assert (status, error) == (1, "")
    page = (tmp_path / "audit" / "report.html").read_text()
    assert "a link that leads out of the store; its bytes aren&#x27;t shown" in page
    assert FIRST not in page and "secret" not in page


def test_bytes_of_links_within_the_store_and_of_named_files_are_shown(tmp_path):
    folder = tmp_path / "store" / "1" / "0"
    folder.mkdir(parents=True)
    (folder / "0.mvt").write_bytes(SECRET)
    (folder / "1.mvt").symlink_to(folder / "0.mvt")
    (tmp_path / "named").write_bytes(SECRET)
    (tmp_path / "lists").mkdir()
    (tmp_path / "lists" / "a.txt").write_text("../named\n../linked\n")
    (tmp_path / "linked").symlink_to(tmp_path / "named")
    audit(tmp_path / "store", "--into", tmp_path / "audit")
    assert (tmp_path / "audit" / "report.html").read_text().count(FIRST) >= 2
    audit(tmp_path / "lists" / "a.txt", "--into", tmp_path / "another")
    page = (tmp_path / "another" / "report.html").read_text()
    assert page.count(FIRST) >= 1 and page.count("leads out of the store") == 1


def test_no_name_of_a_layer_that_a_link_leads_to(tmp_path):
    (tmp_path / "elsewhere.mvt").write_bytes(EVIDENCE["large-id"])
    (tmp_path / "store" / "0" / "0").mkdir(parents=True)
    (tmp_path / "store" / "0" / "0" / "0.mvt").symlink_to(tmp_path / "elsewhere.mvt")
    assert audit(tmp_path / "store", "--into", tmp_path / "audit")[0] == 0
    page = (tmp_path / "audit" / "report.html").read_text()
    assert "<h4>0/0/0</h4>" in page


def standing_line(x, y):
    """A tile of one line, of two positions, which moves by nothing from the second on."""
    integers = packed([9, zigzag(x), zigzag(y), 18, zigzag(-10), zigzag(20), 0, 0])
    feature = field(3, 2) + field(4, integers)
    return field(3, field(15, 2) + field(1, b"a") + field(2, feature))


def picture_of(tile):
    with pytest.raises(Refused) as refused:
        judge(tile)
    assert refused.value.name == "ZeroSegment"
    return pictures.of_tile(tile, refused.value)


def box_of(svg):
    return [float(number) for number in re.search('viewBox="([^"]*)"', svg)[1].split()]


def test_a_feature_within_the_tile():
    picture = picture_of(standing_line(2000, 1000))
    assert picture.told == "The tile, the broken feature in red."
    assert box_of(picture.svg) == [0, 0, 1, 1]
    assert 'd="M0 0h1v1h-1z"' not in picture.svg


@pytest.mark.parametrize("x, y", [(5000, 100), (-300, 4000), (4095, 4090), (100, -100_000), (10**9, 10**9)])
def test_a_feature_beyond_the_tile_is_whole_and_the_tile_has_its_edge(x, y):
    picture = picture_of(standing_line(x, y))
    assert picture.told == "The tile, the broken feature in red, which goes beyond the tile's edge."
    assert 'd="M0 0h1v1h-1z"' in picture.svg
    left, top, wide, high = box_of(picture.svg)
    assert wide == high
    for each, low in (
        (0, left),
        (1, left),
        (x / 4096, left),
        ((x - 10) / 4096, left),
        (0, top),
        (1, top),
        (y / 4096, top),
    ):
        assert low < each < low + wide


def test_the_feature_is_red_whatever_style_the_tile_has():
    svg = picture_of(standing_line(2000, 1000)).svg
    assert "path{fill:none;stroke:currentColor" in svg
    assert re.search('<path style="fill:none;stroke:#e3000f;stroke-width:0.5%" d="M2000 1000 1990 1020', svg)


def test_the_circle_round_a_place_is_whole():
    picture = picture_of(standing_line(4095, 2000))
    left, top, wide, _ = box_of(picture.svg)
    assert left + wide > 4085 / 4096 + 0.03 * wide
    assert picture.told == "The tile, the broken feature in red."
