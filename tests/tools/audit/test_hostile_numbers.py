"""Any metadata, and archives with any numbers, in an audit with a mended copy: each ends in a row, a refusal, or a line and its
status, and never in a defect."""

import json
import sqlite3
import tempfile
from contextlib import closing, contextmanager
from pathlib import Path

import archives
import pytest
from common import at_places, example_tiles, make_mbtiles, make_tree
from hostile import in_time
from hypothesis import HealthCheck, given, settings
from hypothesis import strategies as make
from mvt_tools.audit import engine, main
from mvt_tools.audit.engine import Finished
from mvt_tools.audit.results import Results

EXAMPLES = example_tiles()
TILES = at_places([EXAMPLES["20-ZeroSegment"], EXAMPLES["gdal"], b""])
NEARLY = settings(max_examples=60, deadline=None, suppress_health_check=list(HealthCheck))

# Numbers as JSON spells them, that no float or whole number of 64 bits has; the others are such as stores have.
ODD = [
    "1e400",
    "-1e400",
    "9e999",
    "1" + "0" * 400,
    "-1" + "0" * 400,
    "1" * 5000,
    "NaN",
    "Infinity",
    "-Infinity",
    "1e308",
    "-1e308",
    "1e-400",
    "18446744073709551616",
    "9223372036854775808",
    "-0.0",
    "0",
    "5",
    "255",
    "256",
    "1e6",
]


class Inline:
    """Workers that are this process."""

    count, ahead, ended = 1, 4, 0

    def __init__(self, work):
        self.work, self.found = work, []

    def hand(self, task):
        self.found.append(Finished(task, self.work(task.store, task.tiles)))

    def handed(self):
        return len(self.found)

    def finished(self):
        found, self.found = self.found, []
        return found


@contextmanager
def inline(count, scheduler, work=engine.judged_part):
    yield Inline(work)


class Heedless(main.Signals):
    def heed(self):
        pass


@pytest.fixture(scope="module")
def run():
    """The whole command in this process: its status, and the lines of its output and its errors."""
    with pytest.MonkeyPatch.context() as patched:
        lines = []
        patched.setattr(main, "write", lines.append)
        patched.setattr(main, "say", lines.append)
        patched.setattr(main, "bound_memory", lambda: None)
        patched.setattr(main, "hold_places", lambda: None)
        patched.setattr(main, "Signals", Heedless)
        patched.setattr(engine, "workers", inline)

        def run(*words):
            lines.clear()
            with in_time():
                return main.main(list(map(str, words))), "\n".join(lines)

        yield run


def check(run, store, room):
    """An audit with a copy, and one without."""
    for words in (["--mend", room / "new"], []):
        status, lines = run(store, "--into", room / f"audit{len(words)}", *words)
        assert status in (0, 1, 2, 3), lines
        assert "a defect" not in lines and "Error" not in lines and "unfinished" not in lines, lines
    return lines


def spelled(value):
    """As JSON, with odd numbers in the place of texts that name them."""
    text = json.dumps(value)
    for number in ODD:
        text = text.replace(json.dumps(f"number {number}"), number)
    return text


numbers = make.sampled_from([f"number {each}" for each in ODD]) | make.integers() | make.floats()
plain = (
    numbers
    | make.text(max_size=5)
    | make.booleans()
    | make.none()
    | make.sampled_from(["1,2,3,4", "1,2,3,1e400", "\ud800"])
)
values = make.recursive(
    plain, lambda some: make.lists(some, max_size=5) | make.dictionaries(make.text(max_size=3), some, max_size=3)
)
layers = make.lists(make.fixed_dictionaries({"id": plain, "fields": values}), max_size=3)
metadata = make.fixed_dictionaries(
    {},
    optional={
        **{name: plain for name in ("minzoom", "maxzoom", "name", "format", "more")},
        **{name: make.lists(numbers, min_size=3, max_size=5) | values for name in ("bounds", "center")},
        "vector_layers": layers | values,
        "tilestats": values,
        "json": values,
    },
)


@NEARLY
@given(metadata)
def test_any_metadata_of_a_folder_and_of_an_archive(run, said):
    with tempfile.TemporaryDirectory() as name:
        room = Path(name)
        folder = make_tree(room / "tree", TILES)
        (folder / "metadata.json").write_text(spelled(said))
        check(run, folder, room)
        (room / "a.pmtiles").write_bytes(archives.with_metadata(TILES, spelled(said).encode()))
        (room / "of archive").mkdir()
        check(run, room / "a.pmtiles", room / "of archive")


cells = (
    make.integers(-(1 << 63), (1 << 63) - 1)
    | make.floats()
    | make.text(max_size=5)
    | make.binary(max_size=5)
    | make.none()
    | make.sampled_from(ODD)
)
names = make.sampled_from(["minzoom", "maxzoom", "bounds", "center", "json", "name", "format"]) | cells


@NEARLY
@given(make.lists(make.tuples(names, cells | make.builds(spelled, metadata)), max_size=5))
def test_any_metadata_of_an_mbtiles_file(run, said):
    with tempfile.TemporaryDirectory() as name:
        room = Path(name)
        store = make_mbtiles(room / "a.mbtiles", TILES)
        with closing(sqlite3.connect(store)) as database, database:
            for name, value in said:
                try:
                    database.execute("insert into metadata values (?, ?)", (name, value))
                except UnicodeEncodeError:
                    pass
        check(run, store, room)


edges = make.sampled_from(
    [0, 1, 2, 126, 127, 128, 255, 1 << 31, 1 << 32, 1 << 40, (1 << 62) - 1, (1 << 63) - 1, 1 << 63, (1 << 64) - 1]
)


@NEARLY
@given(make.dictionaries(make.integers(2, 12), edges | make.integers(0, 5000), max_size=3))
def test_any_numbers_in_the_header_of_an_archive(run, changed):
    with tempfile.TemporaryDirectory() as name:
        room = Path(name)
        whole = archives.archive(TILES, said={"name": "a"})
        numbers = list(archives.HEADER.unpack(whole[:127]))
        for at, number in changed.items():
            numbers[at] = number
        (room / "a.pmtiles").write_bytes(archives.HEADER.pack(*numbers) + whole[127:])
        check(run, room / "a.pmtiles", room)


entries = make.tuples(
    edges | make.integers(0, 400),
    edges | make.integers(0, 9),
    edges | make.integers(0, 3000),
    edges | make.integers(0, 400),
)


@NEARLY
@given(make.lists(entries, min_size=1, max_size=4), edges | make.integers(0, 10), make.booleans())
def test_any_numbers_in_a_directory(run, found, addressed, is_sorted):
    with tempfile.TemporaryDirectory() as name:
        room = Path(name)
        found = sorted(found) if is_sorted else sorted(found, key=lambda entry: entry[0])
        content = archives.directory([(number, run, offset, length) for number, run, length, offset in found])
        tile = EXAMPLES["20-ZeroSegment"]
        sections = [127, len(content), 127 + len(content), 2, 129 + len(content), 0, 129 + len(content), len(tile)]
        head = archives.HEADER.pack(b"PMTiles", 3, *sections, addressed, 1, 1, 1, 1, 1, 1, 0, 31, *[0] * 6)
        (room / "a.pmtiles").write_bytes(head[:127] + content + b"{}" + tile)
        check(run, room / "a.pmtiles", room)


def test_the_results_are_closed_whatever_ends_a_run(tmp_path, run):
    """A second run in the same process isn't kept out by the first."""
    folder = make_tree(tmp_path / "tree", TILES)
    (tmp_path / "new.part").write_text("something")
    assert run(folder, "--into", tmp_path / "audit", "--mend", tmp_path / "new")[0] == 2
    with closing(Results(tmp_path / "audit")) as results:
        assert results.file.exists()
