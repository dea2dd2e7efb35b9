#!/usr/bin/env python3
"""Checks the producers' tiles by `mvt check`, and tells what was found: findings.py TILES [--page FILE --pictures FOLDER]

TILES is a folder with a folder for each set of tiles, whose name begins with its producer's. What is told is Markdown. With
--page it takes the place of what stands between the two comments in the page, and the pictures of the smallest features
go to the folder."""
import argparse
import collections
import math
import pathlib
import re
import subprocess
import tempfile

from feature import features_of, ring_area
from picture import picture
from readers import gdal_says, protoc_says

here = pathlib.Path(__file__).parent.resolve()
top = here.parent.parent
mvt = top / "crates/mvt_cli/out/mvt_cli"

PACKAGES = {
    "gdal": ("GDAL", "gdal-bin"),
    "postgis": ("PostGIS", "postgresql-15-postgis-3"),
    "tilemaker": ("tilemaker", "tilemaker"),
    "mapserver": ("MapServer", "mapserver-bin"),
}
REFUSED = re.compile(r"(.*): layer (\S+) feature (\S+) at (\d+): (\d+) (\w+)")
NUMBERS = {}  # of the causes that were told


def producer(set_name):
    return set_name.split("-")[0]


def version(package):
    text = subprocess.run(["dpkg-query", "-W", "-f", "${Version}", package], capture_output=True, text=True).stdout
    return text.split("+")[0].split("-")[0]


def named(key):
    name, package = PACKAGES[key]
    return f"{name} {version(package)}"


def check(files):
    """What `mvt check` says of the files: those with notes, and the refused ones with layer, feature, place and cause."""
    run = subprocess.run(
        ["xargs", "-0", mvt, "check"], input="\0".join(map(str, files)), capture_output=True, text=True
    )
    notes = collections.defaultdict(set)
    for line in run.stdout.splitlines():
        if ": note " in line:
            file, note = line.split(": note ")
            notes[note.split()[0]].add(file)
    told = [m for m in map(REFUSED.fullmatch, run.stderr.splitlines()) if m]
    NUMBERS.update({m[6]: m[5] for m in told})
    refused = {m[1]: (m[2], m[3], int(m[4]), m[6]) for m in told}
    return notes, refused


def lint(files):
    """The files with what viewers stumble over, by its kind."""
    run = subprocess.run(["xargs", "-0", mvt, "lint"], input="\0".join(map(str, files)), capture_output=True, text=True)
    found = collections.defaultdict(set)
    for line in run.stdout.splitlines():
        file, finding = line.split(": lint ")
        found[finding.split()[0]].add(file)
    return found


def tiles_of(folder):
    return sorted(file for file in folder.rglob("*") if file.suffix in (".pbf", ".mvt"))


def judged(features, room):
    """The refused ones of the features, each alone in a tile of its own, with the place and the cause."""
    files = {}
    for number, feature in enumerate(features):
        file = room / f"{number}.mvt"
        file.write_bytes(feature.tile())
        files[str(file)] = feature
    _, refused = check(files)
    return [(files[file], at, cause) for file, (_, _, at, cause) in refused.items()]


def is_narrow(ring):
    """Rounding moves a corner by 0.71 units at most, so that it changes the area by about the perimeter at most."""
    perimeter = sum(math.dist(a, b) for a, b in zip(ring, ring[1:] + ring[:1]))
    return abs(ring_area(ring)) / 2 <= perimeter


def kind_of(feature, cause):
    """What is wrong with the feature, in words."""
    if cause != "FirstRing":
        return cause
    if -ring_area(feature.first_ring()) >= 2**31:
        return "FirstRing, area beyond 32 bits"
    return "FirstRing, narrow" if is_narrow(feature.first_ring()) else "FirstRing, broad"


def table_of_sets(folders, found):
    rows = ["| Producer | Set | Tiles | Refused | by cause | Accepted with a note |", "|---|---|---|---|---|---|"]
    findings = []
    for folder in folders:
        tiles, notes, refused = found[folder.name]
        findings += [f"{kind} in {len(files)} tiles of {folder.name}" for kind, files in sorted(lint(tiles).items())]
        causes = collections.Counter(cause for *_, cause in refused.values())
        by_cause = ", ".join(f"{cause} {n}" for cause, n in causes.most_common()) or "-"
        by_note = ", ".join(f"{note} {len(files)}" for note, files in sorted(notes.items())) or "-"
        rows.append(
            f"| {named(producer(folder.name))} | {folder.name} | {len(tiles):,} | {len(refused):,} | {by_cause} | {by_note} |"
        )
    return rows + ["", f"`mvt lint` finds {', '.join(findings) or 'nothing'} in the accepted tiles."]


def is_corner(feature, at):
    """Whether the point stands where the tile with its margin has a corner; at MapServer's 20 pixels that is 320 units."""
    return all(number in (-320, feature.extent + 320) for number in feature.position_at(at))


def smallest(cases):
    return min(
        cases, key=lambda case: (len(case[1].integers), abs(ring_area(case[1].first_ring())), case[0], case[1].where)
    )


def section(key, kind, cases, pictures):
    """A fault of a producer: how many features have it, the smallest, and what others make of it."""
    tile, feature, at, cause = smallest(cases)
    lines = [f"### {PACKAGES[key][0]}: {kind}", ""]
    lines.append(f"{len(cases):,} features in {len({case[0] for case in cases}):,} tiles.")
    if cause == "FirstRing":
        areas = sorted(-ring_area(case[1].first_ring()) for case in cases)
        lines[-1] += f" Area: -{areas[0]:,} to -{areas[-1]:,}, median -{areas[len(areas) // 2]:,}."
        further = [ring for case in cases for ring in case[1].paths()[1:]]
        if further:
            turned = sum(ring_area(ring) > 0 for ring in further)
            lines[-1] += f" Of {len(further):,} later rings {turned:,} have a positive area."
    if cause == "ZeroSegment":
        corners = sum(is_corner(case[1], case[2]) for case in cases)
        lines[-1] += f" In {corners:,} of them the repeated point is a corner of the tile with its margin."
    if cause == "FirstRing":
        what = f"has {ring_area(feature.first_ring()):,}"
    elif cause == "ZeroSegment":
        what = f"has the point {feature.position_at(at)} twice in a row"
    else:
        what = f"breaks the rule {NUMBERS[cause]} {cause} at {at}"
    lines[-1] += f" The smallest, feature {feature.where[1]} of layer `{feature.layer}` of `{tile}`, {what}:"
    lines += ["", "    " + " ".join(map(str, feature.integers)), ""]
    by_protoc, by_gdal = protoc_says(feature.tile()), gdal_says(feature.tile())
    lines.append(
        f"`ogrinfo` {by_gdal}." if by_protoc == "accepts it" else f"`protoc` {by_protoc}. `ogrinfo` {by_gdal}."
    )
    if pictures:
        name = f"{key}-{re.sub('[^a-zA-Z0-9]+', '-', kind).lower()}.svg"
        (pictures / name).write_text(picture(feature, at, cause))
        lines += ["", f"![{kind}]({pictures.name}/{name})"]
    return lines + [""]


def report(tiles, pictures):
    folders = sorted(folder for folder in tiles.iterdir() if folder.is_dir() and producer(folder.name) in PACKAGES)
    found, cases = {}, collections.defaultdict(list)
    for folder in folders:
        files = tiles_of(folder)
        notes, refused = check(files)
        found[folder.name] = files, notes, refused
        for file in refused:
            with tempfile.TemporaryDirectory() as room:
                for feature, at, cause in judged(features_of(pathlib.Path(file).read_bytes()), pathlib.Path(room)):
                    place = str(pathlib.Path(file).relative_to(tiles))
                    cases[producer(folder.name), kind_of(feature, cause)].append((place, feature, at, cause))
    lines = table_of_sets(folders, found) + [""]
    for (key, kind), of_kind in sorted(cases.items()):
        lines += section(key, kind, of_kind, pictures)
    return "\n".join(lines)


def main():
    words = argparse.ArgumentParser(description=__doc__)
    words.add_argument("tiles", type=pathlib.Path)
    words.add_argument("--page", type=pathlib.Path)
    words.add_argument("--pictures", type=pathlib.Path)
    words = words.parse_args()
    if words.pictures:
        words.pictures.mkdir(parents=True, exist_ok=True)
    text = report(words.tiles.resolve(), words.pictures)
    if not words.page:
        print(text)
        return
    page = words.page.read_text()
    front, rest = page.split("<!-- found -->\n")
    behind = rest.split("<!-- end of what was found -->\n")[1]
    words.page.write_text(f"{front}<!-- found -->\n{text}\n<!-- end of what was found -->\n{behind}")


main()
