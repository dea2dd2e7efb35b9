#!/usr/bin/env python3
"""Runs the program on a tile of some 10 kB, each command once for each of its allocations, that one refused; and
lines that are refused, or name no command, on a tile of one point.

    sweep_program.py SHIM MVT

SHIM is the library built of tests/allocator, MVT the executable that `rt ci` leaves. The tile and all that the
commands answer for it are made here, from the format alone. A run answers as ever, or wants memory: then
its status is 4, its line stands on the error stream, and nothing on the output. The last line is 'N passed, M failed'.
"""

import json
import os
import subprocess
import sys
import tempfile
from pathlib import Path

sys.path.insert(0, str(Path(__file__).resolve().parents[1] / "program"))

from wire import field, packed, zigzag  # noqa: E402

FEATURES = 305
TIMEOUT_SECONDS = 120
MOST_ALLOCATIONS = 100_000


def feature(index):
    """A point with an id and two attributes: a name of its own, and a key and a value for all."""
    tags, point = packed([0, 0, 1, index + 1]), packed([9, zigzag(index), zigzag(-index)])
    return field(1, index) + field(2, tags) + field(3, 1) + field(4, point)


def name_of(index):
    return "place %d" % index


def tile():
    """The tile's canonical bytes: a value is first used in the order of the features."""
    layer = field(15, 2) + field(1, b"places")
    layer += b"".join(field(2, feature(index)) for index in range(FEATURES))
    layer += field(3, b"kind") + field(3, b"name")
    layer += field(4, field(5, 7))
    layer += b"".join(field(4, field(1, name_of(index).encode())) for index in range(FEATURES))
    return field(3, layer + field(5, 4096)), len(layer) + 3


def compact(value):
    return json.dumps(value, separators=(",", ":")).encode()


def attributes(index):
    return [["kind", {"uint": 7}], ["name", {"string": name_of(index)}]]


def shown():
    features = [
        {"attributes": attributes(index), "geometry": {"points": [[index, -index]]}, "id": index}
        for index in range(FEATURES)
    ]
    return compact({"layers": [{"extent": 4096, "features": features, "name": "places"}]}) + b"\n"


def drawn():
    """The picture: a square for the layer, in the first colour, and in it a dot for each feature."""
    style = (
        b"path{fill:none;stroke:currentColor;stroke-width:.2%;stroke-linecap:round;stroke-linejoin:round}"
        b".points{stroke-width:1%}.polygons{fill:currentColor;fill-opacity:.2;fill-rule:evenodd}"
    )
    text = b'<svg xmlns="http://www.w3.org/2000/svg" viewBox="0 0 1 1">\n<style>%s</style>\n' % style
    text += b'<svg color="#0072b2" viewBox="0 0 4096 4096"><title>places</title>\n'
    for index in range(FEATURES):
        title = compact({"attributes": attributes(index), "id": index})
        text += b'<path class="points" d="M%d %dh0"><title>%s</title></path>\n' % (index, -index, title)
    return text + b"</svg>\n</svg>\n"


def run(mvt, words, canonical, shim, refused):
    """Status, output, error stream, and how many allocations the run asked for."""
    reader, writer = os.pipe()
    environment = dict(os.environ, LD_PRELOAD=shim, REFUSE=str(refused), REFUSE_COUNT=str(writer))
    done = subprocess.run(
        [mvt, *words],
        env=environment,
        pass_fds=[writer],
        input=canonical,
        capture_output=True,
        timeout=TIMEOUT_SECONDS,
    )
    os.close(writer)
    with os.fdopen(reader) as counts:
        told = counts.read()
    return done.returncode, done.stdout, done.stderr, int(told) if told.isdigit() else None


def is_refusal(status, output, errors):
    """Whether a line was refused, with some text of clap's."""
    return (status, output) == (2, b"") and errors != b""


def sweep(mvt, words, canonical, shim, written):
    """Why a command fails, or None, and how many runs there were. Nothing is written where a line is refused."""
    is_answer = is_refusal if written is None else lambda *found: found == (0, written, b"")
    status, output, errors, count = run(mvt, words, canonical, shim, 0)
    if count is None:
        return "the shim told no count", 1
    if not is_answer(status, output, errors):
        return "with no allocation refused: status %d, %r" % (status, errors), 1
    wanted = 0
    for refused in range(1, min(count, MOST_ALLOCATIONS) + 1):
        status, output, errors, _ = run(mvt, words, canonical, shim, refused)
        if is_answer(status, output, errors):
            continue
        wanted += 1
        if (status, output, errors) != (4, b"", b"mvt: out of memory\n"):
            return (
                "allocation %d refused: status %d, %d bytes, %r" % (refused, status, len(output), errors),
                refused + 1,
            )
    return None if wanted else "no run wanted memory", count + 1


def main():
    shim, mvt = os.path.abspath(sys.argv[1]), os.path.abspath(sys.argv[2])
    canonical, length = tile()
    report = b"ok layers 1 features %d canonical yes\n" % FEATURES
    folder = tempfile.TemporaryDirectory()
    file = os.path.join(folder.name, "tile")
    with open(file, "wb") as out:
        out.write(canonical)
    commands = [
        (["fields"], b"0 3 len %d\n" % length),
        (["show"], shown()),
        (["draw"], drawn()),
        (["check"], report),
        (["check", file], os.fsencode(file) + b": " + report),
        (["explain"], report),
        (["explain", file], os.fsencode(file) + b": " + report),
        ([], report),
        (["rewrite"], canonical),
        (["mend"], canonical),
        (["extract", "places"], canonical),
    ]
    point = bytes.fromhex("1A1178020A0161120718012203093222288020")
    swept = [(words, canonical, written) for words, written in commands]
    swept += [
        ([], point, b"ok layers 1 features 1 canonical yes\n"),
        (["frob"], point, None),
        (["extract"], point, None),
    ]
    passed = failed = 0
    for words, tile_bytes, written in swept:
        line = " ".join(["mvt", *("FILE" if word == file else word for word in words)])
        why, runs = sweep(mvt, words, tile_bytes, shim, written)
        if why is None:
            passed += 1
            print("%s: want of memory or the answer, %d runs on %d bytes" % (line, runs, len(tile_bytes)))
        else:
            failed += 1
            print("%s: %s" % (line, why))
    print("%d passed, %d failed" % (passed, failed))
    sys.exit(1 if failed else 0)


main()
