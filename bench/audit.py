#!/usr/bin/env python3
"""Times mvt-audit over MBTiles files and PMTiles archives, beside `mvt check FILE..` over the same tiles: audit.py TILES
MVT [COUNT..]

TILES is a folder that evidence/producers/gdal and tilemaker filled. Of its tiles those of 700 to 1,400 bytes are taken in
turn, compressed by gzip, as caches are, until there are so many: 100,000 and 1,000,000 where no count is given. MVT is the
program. The modules libmvt and mvt_tools have to be found (PYTHONPATH). Peaks of memory are of the client and of its largest
worker, seen twenty times a second. The microseconds of a processor are those that the client says it took from the first
tile to the last, and those of all workers together, without what they take for one tile. A client feeds as many workers as
take the time that a tile takes it itself."""

import gzip
import json
import os
import sqlite3
import subprocess
import sys
import tempfile
import time
from contextlib import closing
from pathlib import Path

import psutil
from libmvt.raw import looked_at, survey_rows
from mvt_tools.audit import engine, processes
from mvt_tools.audit.judging import judged_part
from mvt_tools.audit.results import Block, Results
from mvt_tools.stores import opened
from mvt_tools.stores.unpacking import unpacked

sys.path.append(str(Path(__file__).resolve().parents[1] / "tests" / "tools" / "audit"))
import archives  # noqa: E402

WORKERS = 4
NAMES = ("a.mbtiles", "a.pmtiles")
# `mvt check` gets so many files at most: each is one in a folder.
FILES = 100_000
# Tiles of the parts whose best time counts, of a worker and of the client, and how many of each are tried.
JUDGED, ADDED, TRIED = 2000, 20_000, 40


def tiles_of(folder):
    files = sorted(path for path in Path(folder).rglob("*.pbf") if 700 <= path.stat().st_size <= 1400)
    if not files:
        sys.exit(f"{folder}: no tiles of 700 to 1,400 bytes")
    return [path.read_bytes() for path in files]


def make_pmtiles(path, tiles, count):
    packed = [gzip.compress(tile, mtime=0) for tile in tiles]
    # Each tile stands in the file by itself, as in the MBTiles file.
    entries, at = [], 0
    with open(path, "w+b") as file:
        for number, place in enumerate(sorted(archives.tile_id(14, n % 1024, n // 1024) for n in range(count))):
            content = packed[number % len(packed)]
            entries.append((place, 1, at, len(content)))
            at += len(content)
        leaves, root = [], []
        for begin in range(0, count, 4096):
            leaf = gzip.compress(archives.directory(entries[begin : begin + 4096]))
            root.append((entries[begin][0], 0, sum(map(len, leaves)), len(leaf)))
            leaves.append(leaf)
        sections, offset = [], 127
        content = gzip.compress(archives.directory(root))
        for length in (len(content), 0, sum(map(len, leaves)), at):
            sections += [offset, length]
            offset += length
        head = archives.HEADER.pack(b"PMTiles", 3, *sections, count, count, count, 1, 2, 2, 1, 14, 14, *[0] * 6)
        file.write(head[:127] + content + b"".join(leaves))
        for number in range(count):
            file.write(packed[number % len(packed)])


def make(path, tiles, count):
    if path.suffix == ".pmtiles":
        return make_pmtiles(path, tiles, count)
    packed = [gzip.compress(tile, mtime=0) for tile in tiles]
    with sqlite3.connect(path) as database:
        database.execute("create table metadata (name text, value text)")
        database.execute("insert into metadata values ('format', 'pbf')")
        database.execute(
            "create table tiles (zoom_level integer, tile_column integer, tile_row integer, tile_data blob,"
            " unique (zoom_level, tile_column, tile_row))"
        )
        rows = ((14, number % 1024, number // 1024, packed[number % len(packed)]) for number in range(count))
        database.executemany("insert into tiles values (?, ?, ?, ?)", rows)
    database.close()


class Seen:
    """What a process and those below it take while it runs: most memory in MB, and seconds of processors."""

    def __init__(self):
        self.client = self.worker = 0
        self.times = {}

    def look(self, process):
        told = psutil.Process(process.pid)
        while process.poll() is None:
            try:
                below = told.children(recursive=True)
                self.client = max(self.client, told.memory_info().rss // 1_000_000)
                self.worker = max([self.worker, *(each.memory_info().rss // 1_000_000 for each in below)])
                for each in [told, *below]:
                    times = each.cpu_times()
                    self.times[each.pid] = times.user + times.system
            except psutil.Error:
                pass
            time.sleep(0.05)

    def spent(self, client):
        """By the workers."""
        return sum(self.times.values()) - self.times[client]


def audited(path, room, *more):
    words = [sys.executable, "-m", "mvt_tools.audit", path, "--into", room, "--workers", str(WORKERS), "--json", *more]
    seen = Seen()
    with open(Path(room, "out"), "w+") as out:
        begun = time.monotonic()
        process = subprocess.Popen(words, stdout=out)
        seen.look(process)
        seconds = time.monotonic() - begun
        out.seek(0)
        return json.load(out), seconds, seen, seen.spent(process.pid)


class Ready:
    """A store whose parts were judged beforehand: each is the same block in a file."""

    kind = "ready"

    def __init__(self, path, parts):
        self.path, self.parts = path, parts

    def ranges(self, _):
        return iter(range(self.parts))

    def spread(self, _):
        return None


def ready_part(store, _):
    return Path(store.path).read_bytes()


def fed(tiles, size, parts):
    """Microseconds of a processor that the client takes for a tile of ready parts, from the pipes to the index."""
    with tempfile.TemporaryDirectory() as room:
        make(Path(room, "a.pmtiles"), tiles, size)
        store = opened(str(Path(room, "a.pmtiles")))
        state = store.state()
        ready = Ready(str(Path(room, "block")), parts)
        Path(ready.path).write_bytes(judged_part(store, next(store.ranges(size))))
        results = Results(Path(room))
        done = results.begin([ready], [state], size)
        with closing(processes.Processes(WORKERS, ready_part)) as workers:
            begun = time.process_time()
            engine.run(workers, results, [ready], done, lambda added: None)
            results.make_index()
            spent = time.process_time() - begun
        results.close()
    return 1e6 * spent / size / parts


def measured(tiles, count, name):
    """A row of the table. What the workers' beginning and end take is measured with one tile, and taken off."""
    with tempfile.TemporaryDirectory() as room:
        make(Path(room, name), tiles, 1)
        none = audited(Path(room, name), room)[3]
    with tempfile.TemporaryDirectory() as room:
        make(Path(room, name), tiles, count)
        found, seconds, seen, spent = audited(Path(room, name), room)
    seconds_of = found["seconds"]
    client, workers = 1e6 * seconds_of["client"] / count, 1e6 * (spent - none) / count
    return (
        f"| {count:,} | `mvt-audit {name}`, {WORKERS} workers | {seconds:.1f} | {seconds_of['start']:.1f} | {seconds_of['work']:.1f} |"
        f" {found['tiles_a_second']:,} | {client:.2f} and {workers:.0f} | {workers / client:.0f} | {seen.client} and {seen.worker} |"
        f" {found['verdicts']['refused']:,} |"
    )


def alone(tiles, name):
    """A line: what a worker and the client take for a part where they have a processor to themselves, the best of some."""
    with tempfile.TemporaryDirectory() as room:
        make(Path(room, name), tiles, ADDED)
        store = opened(str(Path(room, name)))
        results = Results(Path(room))
        results.begin([store], [store.state()], ADDED)
        block = judged_part(store, next(store.ranges(ADDED)))
        part = next(store.ranges(JUDGED))
        contents = [content for _, content in store.tiles(part)]
        judged, needed, linted, added = [], [], [], []
        for number in range(TRIED):
            judged.append(spent_by(lambda: judged_part(store, part)))
            needed.append(spent_by(lambda: [survey_rows(unpacked(content)) for content in contents]))
            linted.append(spent_by(lambda: [looked_at(unpacked(content)) for content in contents]))
            added.append(spent_by(lambda: results.add([Block(store.path, number, block)])))  # noqa: B023
        results.close()
    return (
        f"{name}: a worker {1e6 * min(judged) / JUDGED:.1f} µs a tile, of which unpacking and judging take"
        f" {1e6 * min(needed) / JUDGED:.1f}, and findings {1e6 * (min(linted) - min(needed)) / JUDGED:.1f};"
        f" the client {1e6 * min(added) / ADDED:.2f}"
    )


def spent_by(call):
    begun = time.process_time()
    call()
    return time.process_time() - begun


def checked(mvt, tiles, count, room):
    """`mvt check` over so many files, by xargs on as many processes: seconds, those of processors, how many are refused."""
    names = []
    for number in range(count):
        path = Path(room, str(number // 1000), f"{number}.mvt")
        path.parent.mkdir(exist_ok=True)
        path.write_bytes(tiles[number % len(tiles)])
        names.append(str(path))
    begun, before = time.monotonic(), os.times()
    told = subprocess.run(
        ["xargs", "-0", "-P", str(WORKERS), "-n", "2000", mvt, "check"],
        input="\0".join(names),
        capture_output=True,
        text=True,
    )
    seconds, after = time.monotonic() - begun, os.times()
    spent = after.children_user + after.children_system - before.children_user - before.children_system
    return seconds, spent, sum(": layer " in line for line in told.stderr.splitlines())


def main():
    tiles = tiles_of(sys.argv[1])
    counts = [int(word) for word in sys.argv[3:]] or [100_000, 1_000_000]
    mean = sum(map(len, tiles)) / len(tiles)
    print(f"{len(tiles)} tiles of {mean:,.0f} bytes on average, in turn; load {os.getloadavg()[0]:.1f}\n")
    print("The best of parts that are judged and added by one process:")
    for name in NAMES:
        print(alone(tiles, name), flush=True)
    for size, parts in ((20_000, 50), (50_000, 40)):
        best = min(fed(tiles, size, parts) for _ in range(3))
        print(
            f"{parts} ready parts of {size:,} tiles: the client {best:.2f} µs a tile, with the pipes and the index",
            flush=True,
        )
    print(
        "\n| Tiles | Program | Seconds | The start | Judging | Tiles a second | Processor, µs a tile | Workers a client can feed | Peak, MB | Refused |"
    )
    print("|---|---|---|---|---|---|---|---|---|---|")
    for count in counts:
        for name in NAMES:
            print(measured(tiles, count, name), flush=True)
        if count <= FILES:
            with tempfile.TemporaryDirectory() as room:
                seconds, spent, refused = checked(sys.argv[2], tiles, count, room)
            print(
                f"| {count:,} | `mvt check`, {WORKERS} processes | {seconds:.1f} | | {seconds:.1f} |"
                f" {count / seconds:,.0f} | {1e6 * spent / count:.0f} | | | {refused:,} |",
                flush=True,
            )


if __name__ == "__main__":
    main()
