#!/usr/bin/python3
"""Draws the evidence tiles and the broken tiles by the viewers, and writes the tables of docs/OTHER_PROGRAMS.md:
viewers.py FOLDER MVT PAGE"""
import collections
import json
import pathlib
import re
import subprocess
import sys
from concurrent.futures import ThreadPoolExecutor

from evidence import tiles
from mapbox_gl import draw

here = pathlib.Path(__file__).parent.resolve()
broken = here.parents[1] / "fixtures/tiles/broken"
sys.path.insert(0, str(broken))
sys.path.insert(0, str(here.parent / "producers"))
from feature import field, fields
from others import ogrinfo, protoc, tile_of

KINDS = ("circle", "fill", "line")  # the last on top
FAR = re.compile(r"(left|right)-(\d+)-of-(\d+)")
folder, mvt, page = map(pathlib.Path, sys.argv[1:])


def ended(status):
    return "crashes" if status == 139 else f"ends with status {status}"


def what_came(a, b):
    """Whether the layer that shows the finding is drawn, and the rest of the tile."""
    if b:
        return "drawn" if a else "nothing"
    return "drawn alone" if a else "nothing at all"


def by_mapbox(tile, kind):
    """What Mapbox GL does with layer `a`, and with the rest of the tile."""
    drawn = draw(tile, [("a", kind), ("b", "circle")])
    if drawn.columns is None:
        return ended(drawn.status)
    a, b = drawn.columns
    if drawn.words:
        return f"drops the tile: `{drawn.words[0]}`" if not b else f"says `{drawn.words[0]}`"
    return what_came(a, b)


def line_by_mapbox(name, tile):
    """The same of a line layer; of a far line, whether its far position is drawn."""
    if not FAR.match(name):
        return by_mapbox(tile, "line")
    drawn = draw(tile, [("a", "line"), ("b", "circle")])
    if drawn.columns is None:
        return ended(drawn.status)
    return "drawn" if is_whole(name, drawn.columns[0]) else "another line"


def is_whole(name, columns):
    """Whether a line is drawn that goes from a fourth of the picture to the right, or from three fourths to the left."""
    return any(int(x) > 192 if name.startswith("right") else int(x) < 320 for x in columns)


def by_qgis(name, file):
    ran = subprocess.run([here / "qgis_draws.py", file], capture_output=True, text=True)
    if ran.returncode:
        return ended(ran.returncode)
    found = json.loads(ran.stdout)
    if FAR.match(name) and found["lines"]:
        return "drawn" if is_whole(name, found["lines"]) else "another line"
    return what_came(found["lines"] or found["polygons"], found["points"])


def lint(file):
    """The kinds of the findings; a line that is none stands whole."""
    ran = subprocess.run([mvt, "lint"], stdin=open(file, "rb"), capture_output=True, text=True)
    return ", ".join(re.sub(r"^lint (\w+).*", r"\1", line) for line in (ran.stdout + ran.stderr).splitlines()) or "-"


def evidence_row(evidence):
    name, tile = evidence
    file = folder / f"{name}.mvt"
    file.write_bytes(tile)
    drawn = by_mapbox(tile, "fill"), line_by_mapbox(name, tile), by_mapbox(tile, "circle")
    same = ["the same" if each == drawn[0] and "`" in each else each for each in drawn[1:]]
    return [f"`{name}`", lint(file), drawn[0], *same, by_qgis(name, file)], ogrinfo(tile)


def far_table(rows):
    """By extents, the positions whose line the viewers draw, and those that Mapbox GL leaves out; the rows that are otherwise."""
    drawn, left_out, others = collections.defaultdict(list), collections.defaultdict(list), []
    for row in rows:
        side, far, extent = FAR.search(row[0]).groups()
        place = f"{'-' if side == 'left' else ''}{int(far):,}"
        if (row[1], row[3], row[5]) == ("-", "drawn", "drawn"):
            drawn[int(extent)].append(place)
        elif (row[1], row[3], row[5]) == ("FarPoint", "another line", "drawn"):
            left_out[int(extent)].append(place)
        else:
            others.append(row)
    heads = ["Extent", "Mapbox GL draws", "it leaves out, and `mvt lint` finds"]
    cells = (
        [f"{extent:,}", *("; ".join(each[extent]) for each in (drawn, left_out))]
        for extent in sorted({*drawn, *left_out})
    )
    return table(heads, cells), others


def of_equal_cells(rows):
    """The rows, those with the same cells as one."""
    names = collections.defaultdict(list)
    for name, *cells in rows:
        names[tuple(cells)].append(name)
    return [[", ".join(alike), *cells] for cells, alike in names.items()]


def evidence_table(rows):
    """The table, that of far positions, and which of the tiles GDAL refuses."""
    rows = list(rows)
    far, others = far_table(row for row, _ in rows if FAR.search(row[0]))
    heads = ["Tile", "`mvt lint`", "Mapbox GL, fill", "Mapbox GL, line", "Mapbox GL, circle", "QGIS"]
    refused = ", ".join(row[0] for row, said in rows if said == "refuses")
    below = f"`ogrinfo` refuses {refused}." if refused else "`ogrinfo` accepts each of these tiles."
    known = table(heads, of_equal_cells([*(row for row, _ in rows if not FAR.search(row[0])), *others]))
    return f"{known}\nLines to a far position, which QGIS draws whole:\n\n{far}\n{below}\n"


def with_extent(tile):
    """The tile with an extent at the front of each layer, or nothing where it isn't whole layers."""
    try:
        layers = [value for number, value in fields(tile) if number == 3 and isinstance(value, bytes)]
    except IndexError:
        return None
    if b"".join(field(3, value) for value in layers) != tile:
        return None
    return b"".join(field(3, b"\x28\x80\x20" + value) for value in layers)


def broken_by_mapbox(tile, kinds=KINDS):
    """What Mapbox GL does with layer `a`, as fill, line and circle at once; where that ends the viewer, without the line."""
    drawn = draw(tile, [("a", kind) for kind in kinds])
    if drawn.columns is None:
        without = f"; without lines {broken_by_mapbox(tile, ('circle', 'fill'))}" if "line" in kinds else ""
        return ended(drawn.status) + without
    if drawn.words:
        return f"drops the tile: `{drawn.words[0]}`"
    shown = [kind for kind, columns in zip(kinds, drawn.columns) if columns]
    return "draws " + (", ".join(shown) or "nothing")


def broken_row(told):
    name = told.split("\t")[0]
    tile = tile_of(name)
    mended = with_extent(tile) if len(tile) < 1 << 20 else None
    return name, protoc(tile), ogrinfo(tile), broken_by_mapbox(mended or tile)


def broken_table(rows):
    """What each program does, and with which tiles."""
    rows = list(rows)
    lines = []
    for column, program in enumerate(("`protoc --decode`", "`ogrinfo`", "Mapbox GL"), 1):
        by_outcome = collections.defaultdict(list)
        for row in rows:
            by_outcome[row[column]].append(row[0])
        for outcome, names in sorted(by_outcome.items(), key=lambda each: -len(each[1])):
            lines.append([program, outcome, "all others" if 2 * len(names) > len(rows) else ", ".join(names)])
            program = ""
    return table(["Program", "What it does", "With these tiles"], lines)


def table(heads, rows):
    head = "| " + " | ".join(heads) + " |\n|" + "---|" * len(heads) + "\n"
    return head + "".join("| " + " | ".join(cells) + " |\n" for cells in rows)


def between(text, name, rows):
    """The text with this table in place of what stands between two comments."""
    begin, end = f"<!-- {name} -->\n", f"<!-- end of {name} -->"
    front, rest = text.split(begin)
    return front + begin + rows + end + rest.split(end)[1]


folder.mkdir(parents=True, exist_ok=True)
with ThreadPoolExecutor(2) as pool:
    found = evidence_table(pool.map(evidence_row, tiles()))
    refused = broken_table(pool.map(broken_row, (broken / "tiles.tsv").read_text().splitlines()))
page.write_text(between(between(page.read_text(), "evidence", found), "broken", refused))
