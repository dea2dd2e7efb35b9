"""An audit to be looked at: make_page.py FOLDER, or test_page.py. Its store has a tile of each cause, whole ones, some that viewers stumble over,
and texts that are HTML."""

import gzip
import sys
from pathlib import Path

import libmvt
from common import EVIDENCE, FOUND, at_places, audit, example_tiles, make_mbtiles
from wire import field, packed


def hostile():
    """Tiles whose texts would do harm in a page that took them as they are: a whole one, one with a large id, and one with a
    broken second layer."""
    text = "<script>document.title='taken'</script><img src=x onerror=\"document.title='taken'\">&amp;"
    features = [libmvt.Feature(id, {text: text}, "lines", [[(0, 0), (4096, 4096)]]) for id in (7, 1 << 60)]
    whole, large = (libmvt.write(libmvt.Tile([libmvt.Layer(text, 4096, [feature])])) for feature in features)
    feature = field(3, 2) + field(4, packed([9, 4, 4, 10, 0, 0]))
    return whole, large, field(3, field(15, 2) + field(1, text.encode()) + field(2, feature))


def make(folder):
    folder.mkdir(parents=True)
    tiles = example_tiles()
    # a whole tile in front of each broken one, so that there is something to see
    stored = [tiles["gdal"] + tile if len(tile) < 1000 else gzip.compress(tile) for tile in tiles.values()]
    stored += [gzip.compress(tiles["gdal"])[:-9], b"", *hostile()]
    places = {
        **at_places(stored, z=4),
        **at_places([tiles["gdal"]] * 3, z=2),
        **at_places(map(EVIDENCE.get, FOUND), z=5),
    }
    places.update(
        ((14, 8529 + x, 5975 + y), stored[(7 * x + y) % len(stored)]) for x in range(40) for y in range(25) if x % 9
    )
    make_mbtiles(folder / "town & <b>country.mbtiles", places)
    status, out, error = audit(folder / "town & <b>country.mbtiles", "--into", folder / "audit")
    assert status == 1 and not error, (status, error)
    return out


if __name__ == "__main__":
    print(make(Path(sys.argv[1])))
