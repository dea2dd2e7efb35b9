#!/usr/bin/python3
"""Mends the tiles that evidence/producers made, and draws every one that is mended, before and after, by Mapbox GL and as MapLibre
fills polygons; writes the table of docs/OTHER_PROGRAMS.md: mended.py MVT PAGE FOLDER..

Each FOLDER has a folder for each set. A pixel is wrong that isn't filled as the even-odd rule fills it, which must be the same
before and after. Tiles of which more is wrong afterwards are named, and the status is then 1. One tile, by QGIS before and after,
becomes producers/mended.png beside the page, where a set has it.
"""
import collections
import itertools
import pathlib
import re
import subprocess
import sys
import tempfile
from concurrent.futures import ProcessPoolExecutor, ThreadPoolExecutor

import filling
import numpy
from mapbox_gl import SIZE, ZOOM, polygons_over
from PIL import Image

here = pathlib.Path(__file__).parent.resolve()
sys.path.insert(0, str(here.parent / "producers"))
from feature import features_of

CHANGE = re.compile(r"mended layer (\d+) feature (\d+): (\w+)")
UNMENDED = re.compile(r"mvt: not mended: (?:layer \d+ feature \d+: )?(.*)")
POLYGON = 3
SHEET = 1 << 2 * ZOOM  # tiles that are drawn at once
DEEPEST = 8  # so many polygons over a pixel are told apart
WAITS = (10000, 20000, 60000)  # milliseconds for what is drawn
PICTURED = "gdal-coast/1/1/0.pbf"


def run(mvt, command, tile):
    return subprocess.run([mvt, command], input=tile, capture_output=True, timeout=300)


class Mended:
    """A tile that was refused, what `mvt mend` made of it, and the changes, or why it is still refused."""

    def __init__(self, mvt, path):
        self.path, self.before = path, path.read_bytes()
        self.refused = run(mvt, "check", self.before).stderr.decode().split(" ")[-1].strip()
        if self.refused:
            done = run(mvt, "mend", self.before)
            self.after = done.stdout if done.returncode == 0 else None
            lines = done.stderr.decode().splitlines()
            self.changes = [CHANGE.match(line).groups() for line in lines if self.after is not None]
            self.why_not = re.sub(r" \d+ and \d+", "", UNMENDED.match(lines[-1])[1]) if self.after is None else None
            self.is_accepted = self.after is not None and run(mvt, "check", self.after).returncode == 0

    def places(self, *kinds):
        """The features with changes, or with such ones."""
        return {(int(layer), int(feature)) for layer, feature, kind in self.changes if not kinds or kind in kinds}

    def changed(self):
        """The rings and the extents of each polygon that was changed, before and after; none after, if it is left out."""
        gone, left = self.places("FeatureLeftOut"), collections.defaultdict(dict)
        for feature in features_of(self.after):
            left[feature.where[0]][feature.where[1]] = feature
        for feature in features_of(self.before):
            layer, place = feature.where
            if feature.type == POLYGON and feature.where in self.places():
                stays = left[layer].get(place - sum(at[0] == layer and at[1] < place for at in gone))
                yield feature.extent, feature.paths(), [] if feature.where in gone else stays.paths()


def names(tiles):
    return sorted({feature.layer for tile in tiles for feature in features_of(tile)})


def changed_truths(mended):
    """Of each changed polygon its box, what the even-odd rule fills there, and what MapLibre fills, before and after."""
    for extent, rings, others in mended.changed():
        box = filling.box_of(rings, extent)
        truth = filling.even_odd(rings, extent, box)
        if (filling.even_odd(others, extent, box) != truth).any():
            raise RuntimeError(f"{mended.path}: the even-odd rule fills something else than before")
        yield box, truth, [filling.by_maplibre(each, extent, box) for each in (rings, others)]


def truth_of(mended):
    """How many polygons should lie over each pixel: the changed ones by the even-odd rule, and others as MapLibre fills them; and
    how many pixels of the changed ones MapLibre fills wrong, before and after."""
    depth, wrong = numpy.zeros((SIZE, SIZE), dtype=numpy.int32), [0, 0]
    for feature in features_of(mended.before):
        if feature.type == POLYGON and feature.where not in mended.places():
            rings = feature.paths()
            left, top, right, bottom = box = filling.box_of(rings, feature.extent)
            depth[top:bottom, left:right] += filling.by_maplibre(rings, feature.extent, box)
    for (left, top, right, bottom), truth, drawn in changed_truths(mended):
        depth[top:bottom, left:right] += truth
        wrong = [count + int((each != truth).sum()) for count, each in zip(wrong, drawn)]
    return numpy.minimum(depth, DEEPEST), wrong


def drawn_by_mapbox(tiles, truths):
    """Of each tile how many pixels are wrong. What isn't drawn yet, on a busy machine, is drawn again, in the same place: what a
    viewer fills of an edge through a pixel's centre differs from place to place."""
    wrong = [None] * len(tiles)
    for wait in WAITS:
        found = polygons_over([tile if at is None else b"" for tile, at in zip(tiles, wrong)], names(tiles), wait)
        for at, picture in enumerate(map(numpy.asarray, found)):
            if wrong[at] is None and (picture.any() or not truths[at].any()):
                wrong[at] = int((picture != truths[at]).sum())
        if None not in wrong:
            return wrong
    raise RuntimeError(f"Mapbox GL draws nothing of {wrong.count(None)} tiles")


def drawn_by_qgis(tile):
    with tempfile.TemporaryDirectory() as room:
        file, picture = pathlib.Path(room, "tile.pbf"), pathlib.Path(room, "out.png")
        file.write_bytes(tile)
        subprocess.run([here / "qgis_draws.py", file, picture], check=True, capture_output=True)
        return Image.open(picture).convert("RGB")


def sheets(tiles):
    return [tiles[at : at + SHEET] for at in range(0, len(tiles), SHEET)]


def compared(mended):
    """Of each tile the wrong pixels in Mapbox GL and in MapLibre, before and after."""
    with ProcessPoolExecutor() as pool:
        truths, by_maplibre = zip(*pool.map(truth_of, mended, chunksize=4))
    by_mapbox = []
    with ThreadPoolExecutor(2) as pool:
        for when in ("before", "after"):
            found = pool.map(drawn_by_mapbox, sheets([getattr(it, when) for it in mended]), sheets(truths))
            by_mapbox.append(list(itertools.chain.from_iterable(found)))
    return list(zip(*by_mapbox)), by_maplibre


def told(counts):
    return ", ".join(f"{kind} {count:,}" for kind, count in sorted(counts.items())) or "-"


def row(mvt, name, folder):
    """The row of a set, and the tiles of which more is wrong afterwards."""
    paths = sorted(path for path in folder.rglob("*") if path.suffix in (".pbf", ".mvt"))
    with ThreadPoolExecutor() as pool:
        refused = [it for it in pool.map(lambda path: Mended(mvt, path), paths) if it.refused]
    whole = [it for it in refused if it.is_accepted]
    if not whole:
        return None, []
    kinds = collections.Counter(kind for it in whole for _, _, kind in it.changes)
    why_not = collections.Counter(it.why_not or "still refused" for it in refused if not it.is_accepted)
    by_mapbox, by_maplibre = compared(whole)
    worse = [
        it.path for it, *counts in zip(whole, by_mapbox, by_maplibre) if any(before < after for before, after in counts)
    ]
    for it, *counts in zip(whole, by_mapbox, by_maplibre):
        if it.path in worse:
            print(f"{it.path}: wrong in Mapbox GL, in MapLibre (before, after): {counts}", file=sys.stderr, flush=True)
    sums = [[sum(each) for each in zip(*counts)] for counts in (by_mapbox, by_maplibre)]
    cells = [name, f"{len(whole):,} of {len(refused):,}", told(why_not), told(kinds)]
    cells += [*(f"{before:,}; {after:,}" for before, after in sums), f"{len(worse):,}"]
    return f"| {' | '.join(cells)} |", worse


def side_by_side(pictures):
    whole = Image.new("RGB", (2 * SIZE + 8, SIZE), "#888888")
    for at, picture in enumerate(pictures):
        whole.paste(picture, (at * (SIZE + 8), 0))
    return whole.convert("P", palette=Image.ADAPTIVE, colors=16)


def main():
    mvt, page, *folders = map(pathlib.Path, sys.argv[1:])
    heads = ["Set", "Mended", "Not mended", "Changes", "Mapbox GL", "MapLibre", "Drawn worse"]
    rows, worse = [f"| {' | '.join(heads)} |", "|" + "---|" * len(heads)], []
    for at, folder in enumerate(folders):
        if (folder / PICTURED).exists():
            pictured = Mended(mvt, folder / PICTURED)
            pictures = [drawn_by_qgis(tile) for tile in (pictured.before, pictured.after)]
            side_by_side(pictures).save(page.parent / "producers/mended.png", optimize=True)
        for each in sorted(it for it in folder.iterdir() if it.is_dir()):
            told_of_set, found = row(mvt, each.name if at == 0 else f"{folder.name}, {each.name}", each)
            worse += found
            if told_of_set:
                rows.append(told_of_set)
                print(told_of_set, flush=True)
    table = "\n".join(rows)
    text = page.read_text(encoding="utf-8")
    text = re.sub(
        r"(<!-- mended -->\n).*?(<!-- end of mended -->)", lambda it: f"{it[1]}{table}\n{it[2]}", text, flags=re.S
    )
    page.write_text(text, encoding="utf-8")
    return bool(worse)


if __name__ == "__main__":
    sys.exit(main())
