"""PMTiles archives of strangers: counts and lengths that nothing stands behind, runs without end, and what must not be
reserved for them."""

import gzip
import itertools
import resource
import tempfile
from pathlib import Path

import archives
import pytest
from hostile import audited, in_time, listed, short, verdicts
from hypothesis import given, settings
from hypothesis import strategies as make
from mvt_tools import stores
from mvt_tools.stores.archive import ArchiveError, Directory, Header, unpacked
from mvt_tools.stores import StoreError
from mvt_tools.stores.tile_ids import id_of, place_of

TILE = b"\x1a\x04\x78\x02\x0a\x00"
BROKEN = b"\x1a\x09"
# The entry of the first tile.
ONE = (0, 1, 0, len(TILE))
# So many ids there are, of the zooms 0 to 31.
PLACES = (4**32 - 1) // 3
# Where the header says what.
ROOT, METADATA, LEAVES, TILES, ADDRESSED = 8, 24, 40, 56, 72


@pytest.fixture(autouse=True)
def patience():
    with in_time():
        yield


@pytest.fixture(autouse=True)
def memory():
    """Nothing here takes a gigabyte more than it had."""
    before = resource.getrlimit(resource.RLIMIT_AS)
    with open("/proc/self/statm") as file:
        pages = int(file.read().split()[0])
    resource.setrlimit(resource.RLIMIT_AS, (pages * resource.getpagesize() + (1 << 30), before[1]))
    yield
    resource.setrlimit(resource.RLIMIT_AS, before)


def archive(root, leaves=b"", data=TILE * 25, addressed=0, internal=1):
    """An archive of such a root directory, spelled or as its entries."""
    content = root if isinstance(root, bytes) else archives.directory(root)
    content = gzip.compress(content) if internal == 2 else content
    begin = 127 + len(content)
    sections = [127, len(content), 127, 0, begin, len(leaves), begin + len(leaves), len(data)]
    head = archives.HEADER.pack(b"PMTiles", 3, *sections, addressed, 0, 0, 1, internal, 1, 1, 0, 31, *[0] * 6)
    return head[:127] + content + leaves + data


def changed(content, at, number):
    return content[:at] + number.to_bytes(8, "little") + content[at + 8 :]


@pytest.fixture
def made(tmp_path):
    def make(content, size=None):
        path = tmp_path / "a.pmtiles"
        with open(path, "wb") as file:
            file.write(content)
            if size is not None:
                file.truncate(size)
        return path

    return make


@pytest.mark.parametrize("run", [1, 2**20, 2**40, 2**60])
def test_a_run_is_one_row_however_long(run, made):
    path = made(archive([(5, run, 0, 4), (5 + run, 1, 4, 4)]))
    rows = audited(path)
    assert [row.tiles for row in rows] == [run, 1]
    assert [row[:3] for row in rows] == [place_of(5), place_of(5 + run)]
    assert stores.opened(str(path)).state().tiles == run + 1
    assert len(listed(path, most=50)) == min(50, run + 1)


def test_a_run_beyond_all_places_is_told(made):
    for run in (PLACES, 2**63, 2**64 - 1):
        rows = audited(made(archive([ONE, (1, run, 0, 4)])))
        assert [row.verdict for row in rows] == ["accepted", "unread"]
        assert rows[1].notes == "entry 1 has tile ids beyond zoom 31"


@pytest.mark.parametrize("said", [2, 2**40, 2**62, 2**63, 2**64 - 1])
def test_a_header_that_says_more_tiles_than_there_are(said, made):
    path = made(archive([ONE], addressed=said))
    store = stores.opened(str(path))
    assert store.state().tiles == min(said, PLACES)
    assert verdicts(audited(path)) == {"0/0/0": "accepted", "header": "unread"}
    assert len(listed(path)) == 1


@pytest.mark.parametrize("at", [ROOT, LEAVES, TILES])
@pytest.mark.parametrize("said", [2**31, 2**40, 2**63, 2**64 - 1])
def test_a_section_beyond_the_file_is_told(at, said, made):
    for where in (at, at + 8):
        with pytest.raises(StoreError, match="end at .*, and the file has"):
            audited(made(changed(archive([ONE]), where, said)))


def test_a_directory_of_a_terabyte_in_a_hole_is_told(made):
    root = changed(changed(archive([ONE]), ROOT, 4096), ROOT + 8, 1 << 40)
    for ask in (audited, listed):
        with pytest.raises(StoreError, match="it has 1,099,511,627,776 bytes; 64,000,000 are the most"):
            ask(made(root, 1 << 41))


def test_a_leaf_of_a_terabyte_in_a_hole_is_an_unread_row(made):
    content = archive([ONE, (1, 0, 0, 1 << 40)])
    content = changed(changed(content, LEAVES, 1 << 20), LEAVES + 8, 1 << 40)
    path = made(content, 1 << 41)
    rows = audited(path)
    assert [row.verdict for row in rows] == ["accepted", "unread"]
    assert "64,000,000 are the most" in rows[1].notes
    assert len(listed(path)) == 2


def test_a_tile_of_a_terabyte_in_a_hole_is_read_no_further_than_decides(made):
    content = archive([(0, 1, 0, 1 << 40)])
    content = changed(changed(content, TILES, 1 << 20), TILES + 8, 1 << 40)
    front = b"\x7a" + archives.varint((1 << 40) - 7)
    [row] = audited(made(content.ljust(1 << 20, b"\0") + front, 1 << 41))
    assert (row.verdict, row.cause_name) == ("refused", "TooLarge")


def test_more_entries_than_bytes_are_told(made):
    for count in (2**20, 2**40, 2**63, 2**64 - 1):
        for ask in (audited, listed):
            with pytest.raises(StoreError, match="it ends early"):
                ask(made(archive(archives.varint(count) + b"\1" * 40)))


def test_entries_of_any_numbers(made):
    numbers = [0, 1, 2**32, 2**63, 2**64 - 1]
    for number, run, offset, length in itertools.product([0, PLACES - 1, 2**63], *[numbers] * 3):
        spelled = b"".join(map(archives.varint, (1, number, run, length, offset)))
        for ask in (audited, lambda path: listed(path, most=3)):
            try:
                ask(made(archive(spelled)))
            except (StoreError, OSError) as why:
                assert "\n" not in str(why)


def test_a_bomb_of_a_directory_is_told(made):
    bomb = archives.varint(60_000_000) + bytes(200_000_000)
    with pytest.raises(StoreError, match="unpacks to more than 64,000,000 bytes"):
        audited(made(archive(bomb, internal=2)))


def entries(count, first=0, lengths=len(TILE)):
    """A directory of so many tiles, which all are the same bytes."""
    columns = bytes([first]) + b"\1" * (count - 1), b"\1" * count, archives.varint(lengths) * count, b"\1" * count
    return archives.varint(count) + b"".join(columns)


def slices(path, size):
    """Those that an archive's directories are cut into."""
    store = stores.opened(str(path))
    store.state()
    return [each for part in store.ranges(size) for each in part]


def test_a_directory_is_cut_into_64_slices_at_most(made):
    """Each reads it from its front, so that many would take the square of its entries."""
    path = made(archive(entries(100_000), internal=2))
    for size, count in ((1, 64), (1000, 64), (2000, 50), (100_000, 1)):
        found = slices(path, size)
        assert len(found) <= count and [each.first for each in found[1:]] == [each.end for each in found[:-1]]
        assert (found[0].first, found[-1].end) == (0, 100_000)


def test_a_directory_has_100_000_entries_at_most_or_one_for_each_byte_of_the_archive(made):
    """From 600 bytes of gzip."""
    assert slices(made(archive(entries(100_000), internal=2)), 1000)[-1].end == 100_000
    many = archive(entries(100_001), internal=2)
    assert len(many) < 1000
    for ask in (audited, lambda path: listed(path, most=1)):
        with pytest.raises(
            StoreError, match="it has 100,001 entries; 100,000 are the most that are read of such an archive"
        ):
            ask(made(many))
    assert slices(made(many, 100_001), 1000)[-1].end == 100_001


def test_all_directories_have_100_000_entries_at_most_or_one_for_each_byte_of_the_archive(made):
    """Of four leaves of 30,000 entries, as of any that are one too many, the first ones are read."""
    packed, pointers = [], []
    for number in range(4):
        leaf = archives.varint(30_000) + archives.varint(30_000 * number) + entries(30_000)[4:]
        packed.append(gzip.compress(leaf))
        pointers.append((30_000 * number, 0, sum(map(len, packed[:-1])), len(packed[-1])))
    path = made(archive(archives.directory(pointers), leaves=b"".join(packed), internal=2))
    store = stores.opened(str(path))
    assert store.state().tiles == 90_000
    fault = list(store.ranges(1000))[-1][-1]
    assert (fault.name, fault.why) == (
        "directories",
        "they have more than 100,000 entries, the most that are read of such an archive",
    )


# ---- compressions


@pytest.fixture
def zstd():
    """What packs by zstd, frame by frame."""
    return pytest.importorskip("zstandard", reason="zstandard isn't there").compress


def rows_of(made, stored, packed):
    """The rows of an archive of one tile, as it lies there."""
    return audited(made(archives.archive({(0, 0, 0): stored}, packed=packed)))


def test_a_zstd_that_is_cut_off_is_told(made, zstd):
    whole = zstd(TILE * 40)
    for end in range(1, len(whole)):
        [row] = rows_of(made, whole[:end], 4)
        assert (row.verdict, row.notes) == ("not unpacked", "zstd: cut off"), end


def test_a_zstd_of_several_frames_is_all_of_them(made, zstd):
    skipped = b"\x50\x2a\x4d\x18\3\0\0\0abc"
    [row] = rows_of(made, skipped + zstd(TILE) + zstd(b"") + zstd(BROKEN) + skipped, 4)
    assert row.verdict == "refused"
    assert unpacked(zstd(TILE) + skipped + zstd(BROKEN), 4, 1000) == TILE + BROKEN


@pytest.mark.parametrize("behind", [b"\0", b"more", b"\x28\xb5\x2f\xfd"])
def test_what_stands_behind_a_zstd_is_told(behind, made, zstd):
    [row] = rows_of(made, zstd(TILE) + behind, 4)
    assert row.verdict == "not unpacked" and row.notes.startswith("zstd: ")


def test_more_frames_of_zstd_than_a_tile_has_are_told(made, zstd):
    [row] = rows_of(made, zstd(b"") * 5000, 4)
    assert (row.verdict, row.notes) == ("not unpacked", "zstd: more than 4,096 frames")


def test_a_bomb_of_zstd_is_too_large(made, zstd):
    [row] = rows_of(made, zstd(b"\x7a" + archives.varint((1 << 27) - 5) + bytes(1 << 27)), 4)
    assert (row.verdict, row.cause_name) == ("refused", "TooLarge")


# ---- what an archive says of itself


@pytest.mark.parametrize("said", [2**31, 2**40, 2**62, 2**63 - 1, 2**63, 2**64 - 1])
def test_metadata_beyond_the_file_are_told(said, made):
    for where in (METADATA, METADATA + 8):
        path = made(changed(archive([ONE]), where, said))
        assert verdicts(audited(path)) == {"0/0/0": "accepted"}
        store = stores.opened(str(path))
        store.check()
        with pytest.raises(OSError, match="the metadata end at .*, and the file has"):
            store.metadata()


def test_metadata_of_a_terabyte_in_a_hole_are_told(made):
    store = stores.opened(str(made(changed(archive([ONE]), METADATA + 8, 1 << 40), 1 << 41)))
    store.check()
    with pytest.raises(ValueError, match="its metadata have 1,099,511,627,776 bytes; 8,388,608 are the most"):
        store.metadata()


def with_metadata(made, content, internal=1):
    """A store whose metadata are these bytes, as they lie there."""
    whole = archive([ONE], internal=internal)
    whole = changed(changed(whole, METADATA, len(whole)), METADATA + 8, len(content)) + content
    store = stores.opened(str(made(whole)))
    store.check()
    return store


def test_a_bomb_of_metadata_is_told(made):
    with pytest.raises(ValueError, match="its metadata unpack to more than 8,388,608 bytes"):
        with_metadata(made, gzip.compress(b"[" + b" " * 200_000_000 + b"]"), 2).metadata()


@pytest.mark.parametrize("content", [b"[", b"[]", b"null", b"5", b"[" * 100_000, b"\xff\xfe", b"9" * 5000], ids=short)
def test_metadata_that_are_no_object_are_told(content, made):
    with pytest.raises(ValueError):
        with_metadata(made, content).metadata()


# ---- any bytes at all


@settings(max_examples=200, deadline=None)
@given(make.binary(max_size=200), make.integers(0, 2**64))
def test_any_header_is_a_header_or_refused(content, size):
    for front in (content, b"PMTiles\3" + content):
        try:
            header = Header.of(front, size)
        except ArchiveError:
            continue
        assert max(map(sum, (header.root, header.leaves, header.tiles))) <= size


@settings(max_examples=200, deadline=None)
@given(make.binary(max_size=300))
def test_any_directory_is_entries_or_refused(content):
    try:
        directory = Directory(content, 1 << 20)
        behind = 0
        for entry in directory.entries():
            assert behind <= entry.tile_id and entry.tile_id + entry.run <= PLACES and entry.length > 0
            behind = entry.tile_id + (entry.run or 1)
    except ArchiveError:
        return
    assert directory.own() <= directory.count <= len(content)


@settings(max_examples=200, deadline=None)
@given(
    make.lists(make.tuples(*[make.integers(0, 2**64 - 1) | make.integers(0, 50)] * 4), max_size=8),
    make.integers(0, 2**64 - 1),
)
def test_any_entries_are_rows_or_refused(entries, addressed):
    columns = zip(*entries) if entries else ()
    spelled = archives.varint(len(entries)) + b"".join(archives.varint(each) for column in columns for each in column)
    with tempfile.TemporaryDirectory() as room:
        path = Path(room, "a.pmtiles")
        path.write_bytes(archive(spelled, leaves=spelled, addressed=addressed))
        for ask in (audited, lambda path: listed(path, most=20)):
            try:
                ask(path)
            except (StoreError, OSError):
                pass


@settings(max_examples=200, deadline=None)
@given(make.binary(max_size=200), make.sampled_from([1, 2, 3, 4]))
def test_any_bytes_unpack_or_are_refused(content, compression):
    for stored in (content, gzip.compress(content)[: len(content)], b"\x28\xb5\x2f\xfd" + content):
        try:
            # What one piece of a few bytes unpacks to is 8 MiB at most.
            assert len(unpacked(stored, compression, 1000)) <= 1000 + (1 << 23)
        except ArchiveError:
            pass


@settings(max_examples=200, deadline=None)
@given(make.binary(max_size=100), make.booleans(), make.sampled_from([1, 2]), make.binary(min_size=24, max_size=24))
def test_any_metadata_are_an_object_or_refused(content, is_object, internal, head):
    said = b'{"minzoom": ' + content + b"}" if is_object else content
    with tempfile.TemporaryDirectory() as room:
        path = Path(room, "a.pmtiles")

        def made(whole):
            # Zooms, bounds and the centre.
            path.write_bytes(whole[:100] + head + whole[124:])
            return path

        try:
            found = with_metadata(made, gzip.compress(said) if internal == 2 else said, internal).metadata()
        except (OSError, ValueError):
            return
        assert isinstance(found, dict) and set(found) >= {"minzoom", "maxzoom", "bounds"}


@settings(max_examples=200, deadline=None)
@given(
    make.sampled_from([1, 2, 3, 4]),
    make.sampled_from([1, 2]),
    make.integers(0, 999),
    make.binary(max_size=9),
    make.booleans(),
)
def test_any_change_of_an_archive_is_rows_or_refused(packed, internal, at, put, is_cut):
    pack = {
        1: bytes,
        2: gzip.compress,
        3: pytest.importorskip("brotli").compress,
        4: pytest.importorskip("zstandard").compress,
    }[packed]
    tiles = {(z, 0, 0): pack(TILE * (z + 1)) for z in range(4)}
    whole = archives.archive(tiles, leaf=2, internal=internal, packed=packed, said={"bounds": [0, 0, 1, 1]})
    with tempfile.TemporaryDirectory() as room:
        path = Path(room, "a.pmtiles")
        at %= len(whole)
        path.write_bytes(whole[:at] + put + (b"" if is_cut else whole[at + len(put) :]))
        for ask in (audited, listed, lambda path: stores.opened(str(path)).check()):
            try:
                ask(path)
            except (StoreError, OSError) as why:
                assert "\n" not in str(why)


@settings(max_examples=200, deadline=None)
@given(make.integers(0, PLACES - 1))
def test_ids_and_places_are_each_others(number):
    assert id_of(*place_of(number)) == number == archives.tile_id(*place_of(number))


@pytest.mark.parametrize(
    "key", [(), (1,), (-1, 0), (1, 2), (1, -1), (PLACES, 0), (2**70, 0), ("0", 0), (None, None), (0, 0, 0)], ids=short
)
def test_a_key_that_is_none(key, made):
    store = stores.opened(str(made(archive([ONE]))))
    store.check()
    for ask in (store.held, lambda key: list(store.since(key))):
        with pytest.raises(ValueError):
            ask(key)
