#!/usr/bin/env python3
"""Measures `mvt check`, `show`, `rewrite` and `extract` on a tile of 500 kB, on one that is a single layer of
25 MB, and on one of 60 MiB, beside `protoc --decode` and GDAL's `ogrinfo` on the same tiles.

    bench/program.py [crates/mvt_cli/out/mvt_cli [library/out/libmvt.so]]

Wants the program as `rt ci` or `rt run` leaves it, and Debian's protobuf-compiler and gdal-bin. Prints
a table: the best wall time of the runs and the peak memory of that program alone (16 MB at least, which
are this script's). Input comes from a file, output goes to /dev/null. With the library, the time of its
`mvt_judge` stands there too: of the call alone, without the reading of the file.
"""

import ctypes
import multiprocessing
import os
import random
import struct
import subprocess
import sys
import tempfile
import time
from pathlib import Path

sys.path.insert(0, str(Path(__file__).resolve().parents[1] / "tests" / "program"))

from wire import field, packed, zigzag  # noqa: E402

ROUNDS = 5
CLASSES = [b"residential", b"service", b"track", b"primary", b"footway", b"building", b"forest", b"lake"]
PROTO = ["protoc", "-Ifixtures/tiles", "--decode=Tile", "vector_tile.proto"]


def steps(points, at):
    """The parameters of a path's points, and where it ends."""
    integers = []
    for x, y in points:
        integers += [zigzag(x - at[0]), zigzag(y - at[1])]
        at = (x, y)
    return integers, at


def shape(dice):
    """The type and the integers of a point, of a line of 20 points, or of a rectangle."""
    x, y = dice.randrange(4000), dice.randrange(4000)
    kind = dice.randrange(1, 4)
    if kind == 1:
        return kind, [9, zigzag(x), zigzag(y)]
    if kind == 2:
        points = [(x, y)]
        for _ in range(19):
            last = points[-1]
            points.append((last[0] + dice.randrange(1, 40), last[1] + dice.randrange(-30, 31)))
        first, at = steps(points[:1], (0, 0))
        rest, _ = steps(points[1:], at)
        return kind, [9] + first + [8 * 19 + 2] + rest
    wide, high = dice.randrange(2, 90), dice.randrange(2, 90)
    return kind, [9, zigzag(x), zigzag(y), 26, zigzag(wide), 0, 0, zigzag(high), zigzag(-wide), 0, 15]


def layer(dice, name, size):
    """A layer in canonical form of about so many bytes: four attributes a feature, an id each."""
    keys = [b"class", b"name", b"height", b"levels"]
    values, places, features, total, number = [], {}, [], 0, 0

    def place(entry):
        if entry not in places:
            places[entry] = len(values)
            values.append(entry)
        return places[entry]

    while total < size:
        number += 1
        entries = [
            field(1, dice.choice(CLASSES)),
            field(1, b"Street %d" % dice.randrange(9000)),
            b"\x19" + struct.pack("<d", dice.randrange(400) / 4),
            field(5, dice.randrange(60)),
        ]
        tags = packed(number for key, entry in enumerate(entries) for number in (key, place(entry)))
        kind, integers = shape(dice)
        body = field(1, number) + field(2, tags) + field(3, kind) + field(4, packed(integers))
        features.append(field(2, body))
        total += len(body) + 2
    keyed = b"".join(field(3, key) for key in keys)
    valued = b"".join(field(4, entry) for entry in values)
    return field(3, field(15, 2) + field(1, name) + b"".join(features) + keyed + valued + field(5, 4096))


def run(words, path):
    """The wall time in seconds, the peak memory in MB and the status of the words, the file as their input."""
    with open(path, "rb") as file, open(os.devnull, "wb") as sink:
        started = time.perf_counter()
        program = subprocess.Popen(words, stdin=file, stdout=sink)
        _, status, usage = os.wait4(program.pid, 0)
        seconds = time.perf_counter() - started
    return seconds, usage.ru_maxrss * 1024 / 1e6, os.waitstatus_to_exitcode(status)


def judged(library, path):
    """The best time in seconds of the library's `mvt_judge`, and the status that it answers."""
    judge = ctypes.CDLL(library).mvt_judge
    with open(path, "rb") as file:
        tile = file.read()
    fault = ctypes.create_string_buffer(64)
    best = float("inf")
    for _ in range(ROUNDS):
        started = time.perf_counter()
        status = judge(tile, ctypes.c_size_t(len(tile)), fault)
        best = min(best, time.perf_counter() - started)
    return best, status


def apart(function, *words):
    """What a function answers in a process of its own, so that its memory isn't counted for the next program."""
    with multiprocessing.Pool(1) as pool:
        return pool.apply(function, words)


def make(path, layers, size):
    """Writes a tile of so many layers of about so many bytes."""
    dice = random.Random(1)
    with open(path, "wb") as file:
        for index in range(layers):
            file.write(layer(dice, b"layer %d" % index, size))


def main():
    program = sys.argv[1] if len(sys.argv) > 1 else "crates/mvt_cli/out/mvt_cli"
    library = sys.argv[2] if len(sys.argv) > 2 else None
    print("| Tile | Program | Seconds | Peak, MB |")
    print("|---|---|---|---|")
    for label, layers, size in [("500 kB", 4, 93_000), ("one layer", 1, 22_500_000), ("60 MiB", 12, 5_100_000)]:
        with tempfile.NamedTemporaryFile(suffix=".mvt") as file:
            # A process begins with the peak memory of the one that starts it.
            apart(make, file.name, layers, size)
            runs = [("`mvt %s`" % word, [program, word]) for word in ("check", "show", "rewrite")]
            names = ["layer %d" % index for index in range(layers)]
            runs += [
                ("`mvt extract` of all layers", [program, "extract"] + names),
                ("`mvt extract` of one layer", [program, "extract", names[0]]),
            ]
            runs += [
                ("`protoc --decode`", PROTO),
                ("`ogrinfo -al -so`", ["ogrinfo", "-al", "-so", "MVT:" + file.name]),
                ("`ogrinfo -al -q`", ["ogrinfo", "-al", "-q", "MVT:" + file.name]),
            ]
            size = os.path.getsize(file.name)
            for name, words in runs:
                seconds, peak, status = min(run(words, file.name) for _ in range(ROUNDS))
                said = "" if status == 0 else ", which refuses it with status %d" % status
                print("| %s (%d bytes) | %s%s | %.3f | %.0f |" % (label, size, name, said, seconds, peak), flush=True)
            if library:
                seconds, status = apart(judged, library, file.name)
                print(
                    "| %s (%d bytes) | `mvt_judge`%s | %.3f | |"
                    % (label, size, "" if status == 0 else ", refused", seconds)
                )


main()
