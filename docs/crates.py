#!/usr/bin/env python3
"""Draws docs/crates.svg, the crates and what they stand on, from crates.txt: docs/crates.py

A line that follows from others isn't drawn. The toolchain's libraries are left out.
"""

from pathlib import Path

ROOT = Path(__file__).resolve().parent.parent
WORDS = {
    "mvt_base": "texts, lists, rules",
    "mvt_wire": "fields, numbers",
    "mvt_io": "readers, writers",
    "mvt_attrs": "values, pools, tags",
    "mvt_geometry": "paths, rings",
    "mvt_rings": "rings by even-odd",
    "mvt_mend": "geometries mended",
    "mvt_feature": "values, features",
    "mvt_message": "layers",
    "mvt_tile_value": "tiles as values, writing",
    "mvt_tile": "reading, the decoder",
    "mvt_callers": "examples of callers",
    "mvt_view": "JSON, pictures, reports",
    "mvt_rows": "tiles as rows",
    "mvt_places": "the places of faults",
    "mvt_tasks": "what the program does",
    "mvt_promises": "promises of the calls",
    "mvt_words": "words of a command line",
    "mvt_cli": "the program mvt",
    "mvt_c": "the library for C",
    "mvt_bench": "what bench/ measures",
    "mvt_workloads": "the jobs that are timed",
    "mvt_codec_tests": "tests up to mvt_geometry",
    "mvt_mend_tests": "tests of mending",
    "mvt_layer_tests": "tests of layers",
    "mvt_tile_tests": "tests of tiles",
    "mvt_view_tests": "tests of texts and rows",
    "mvt_task_tests": "tests of tasks",
}
# Each crate's place from the left, in boxes; how high it stands follows from crates.txt.
COLUMN = {
    "mvt_base": 1,
    "mvt_wire": 0,
    "mvt_attrs": 1,
    "mvt_io": 2,
    "mvt_geometry": 0,
    "mvt_rings": 2,
    "mvt_mend": 2,
    "mvt_feature": 0.5,
    "mvt_message": 0.5,
    "mvt_tile_value": 1,
    "mvt_tile": 1,
    "mvt_callers": 3,
    "mvt_view": 1,
    "mvt_rows": 2,
    "mvt_places": 3,
    "mvt_tasks": 0,
    "mvt_promises": 2,
    "mvt_words": 0,
    "mvt_cli": 0,
    "mvt_c": 1,
    "mvt_bench": 2,
    "mvt_workloads": 2,
    "mvt_codec_tests": 3,
    "mvt_mend_tests": 2,
    "mvt_layer_tests": 3,
    "mvt_tile_tests": 0,
    "mvt_view_tests": 3,
    "mvt_task_tests": 1,
}
WIDE, HIGH, GAP, RISE = 176, 50, 24, 92


def crates():
    """Each crate with the crates of the repository that it names."""
    listed = {}
    for line in (ROOT / "crates.txt").read_text().splitlines():
        name, _, names = line.partition(":")
        listed[name.split()[0]] = names.split()
    return {name: [low for low in names if low in listed] for name, names in listed.items()}


def below(all_crates, name):
    """All crates below one."""
    return {x for low in all_crates[name] for x in {low, *below(all_crates, low)}}


def level(all_crates, name):
    return 1 + max((level(all_crates, low) for low in all_crates[name]), default=-1)


def direct(all_crates, name):
    """The crates right below one: those that no other of them stands on."""
    lower = all_crates[name]
    return [low for low in lower if not any(low in below(all_crates, other) for other in lower)]


def places(all_crates):
    """The middle of each crate's box, and the size of the picture."""
    top = max(level(all_crates, name) for name in all_crates)
    found = {
        name: (COLUMN[name] * (WIDE + GAP) + WIDE / 2 + GAP, (top - level(all_crates, name)) * RISE + HIGH / 2 + GAP)
        for name in all_crates
    }
    return found, (max(COLUMN.values()) + 1) * (WIDE + GAP) + GAP, top * RISE + HIGH + 2 * GAP


def drawn():
    all_crates = crates()
    at, width, height = places(all_crates)
    lines = [
        f'<svg xmlns="http://www.w3.org/2000/svg" viewBox="0 0 {width:g} {height:g}" font-family="sans-serif" text-anchor="middle">',
        "<title>The crates, and what each stands on</title>",
        f'<rect width="{width:g}" height="{height:g}" fill="#fff"/>',
    ]
    for name, (x, y) in at.items():
        for low in direct(all_crates, name):
            to_x, to_y = at[low]
            lines.append(
                f'<path d="M{x:g} {y + HIGH / 2:g}C{x:g} {y + RISE / 2 + 8:g} {to_x:g} {to_y - RISE / 2 - 8:g} {to_x:g} {to_y - HIGH / 2:g}" '
                'fill="none" stroke="#888" stroke-width="1.5"/>'
            )
    for name, (x, y) in at.items():
        fill = "#e8f1e4" if name in ("mvt_cli", "mvt_c", "mvt_bench", "mvt_workloads") else "#e6eef8"
        lines += [
            f'<rect x="{x - WIDE / 2:g}" y="{y - HIGH / 2:g}" width="{WIDE}" height="{HIGH}" rx="6" fill="{fill}" stroke="#678"/>',
            f'<text x="{x:g}" y="{y - 4:g}" font-size="15" font-weight="bold" fill="#123">{name}</text>',
            f'<text x="{x:g}" y="{y + 15:g}" font-size="12" fill="#345">{WORDS[name]}</text>',
        ]
    return "\n".join([*lines, "</svg>", ""])


(ROOT / "docs" / "crates.svg").write_text(drawn())
