"""What other readers make of a tile."""
import pathlib
import re
import subprocess
import tempfile

here = pathlib.Path(__file__).parent.resolve()


def protoc_says(tile):
    run = subprocess.run(
        ["protoc", f"-I{here.parents[1]}/fixtures/tiles", "--decode=Tile", "vector_tile.proto"],
        input=tile,
        capture_output=True,
    )
    return "refuses it" if run.returncode else "accepts it" if not run.stderr else "accepts it with a warning"


def gdal_says(tile):
    with tempfile.TemporaryDirectory() as folder:
        at = pathlib.Path(folder) / "tile.mvt"
        at.write_bytes(tile)
        run = subprocess.run(["ogrinfo", "-al", "-q", f"MVT:{at}"], capture_output=True, text=True)
    errors = [line for line in run.stderr.splitlines() if line]
    said = f", and prints `{errors[0]}`" if errors else ""
    if run.returncode:
        return "refuses it" + said
    drawn = re.search(r"^  ((MULTI)?(POINT|LINESTRING|POLYGON) (\(|EMPTY).*)", run.stdout, re.M)
    if not drawn:
        return "shows no geometry" + said
    text = drawn[1] if len(drawn[1]) <= 200 else drawn[1][:200] + ".."
    return f"shows `{text}`" + said
