"""The example of a filter: good tiles pass as they are, empty ones stand in the place of broken ones."""

import subprocess
import sys
from pathlib import Path

TILES = Path(__file__).resolve().parents[2] / "fixtures" / "tiles"


def framed(tiles):
    return b"".join(len(tile).to_bytes(4, "big") + tile for tile in tiles)


good = [(TILES / name).read_bytes() for name in ("gdal.mvt", "postgis.mvt", "point.mvt")]
broken = (TILES / "broken" / "20-ZeroSegment.mvt").read_bytes()
run = subprocess.run(
    [sys.argv[1]], input=framed([good[0], broken, b"", good[1], b"\x1b", good[2]]), capture_output=True
)
assert run.returncode == 0, run
assert run.stdout == framed([good[0], b"", b"", good[1], b"", good[2]])
told = run.stderr.decode().splitlines()
assert told == ["tile 1: ZeroSegment at 4 of layer 0, feature 0", "tile 4: WireType at 0"], told
for cut in (b"\0\0", b"\0\0\0\5ab"):
    assert subprocess.run([sys.argv[1]], input=cut, capture_output=True).returncode == 1
