"""Files of a disk, which no contract knows.

A file that isn't there, that is a folder or that can't be read is told and doesn't end the run; a file that was checked is
closed; and what is said of a file goes out in one write, so that reports of several processes don't mix.
"""

import fcntl
import os
import resource
import subprocess
from pathlib import Path


TILES = Path(__file__).resolve().parents[2] / "fixtures" / "tiles"
GOOD, BROKEN = TILES / "gdal.mvt", TILES / "broken" / "20-ZeroSegment.mvt"
REPORT = (TILES / "gdal.check").read_text()
FAULT = "layer 0 feature 0 at 4: 20 ZeroSegment\n"
FEW = 64


def mixed(folder):
    """A good file, a broken one, a name that isn't there, a folder, and the good one again; and what is told of them."""
    absent = folder / "absent"
    told = f"{BROKEN}: {FAULT}{absent}: read failed\n{folder}: read failed\nmvt: 5 tiles: 2 accepted, 1 refused, 2 unread\n"
    return [GOOD, BROKEN, absent, folder, GOOD], told


def test_checked(run, tmp_path):
    words, told = mixed(tmp_path)
    assert run("check", *words) == (3, f"{GOOD}: {REPORT}".encode() * 2, told)


def test_explained(run, tmp_path):
    """What is said of the broken one stands between the reports."""
    words, told = mixed(tmp_path)
    said = run("explain", tile=BROKEN.read_bytes()).output.decode()
    lines = "".join(f"{BROKEN}: {line}\n" for line in said.splitlines())
    assert run("explain", *words) == (3, f"{GOOD}: {REPORT}{lines}{GOOD}: {REPORT}".encode(), told)


def test_one(run):
    assert run("check", "--", GOOD) == (0, f"{GOOD}: {REPORT}".encode(), "")


def test_the_input_is_not_read(run):
    """It is a folder, which fails when it is read."""
    folder = os.open(TILES, os.O_RDONLY)
    try:
        assert run("check", GOOD, stdin=folder) == (0, f"{GOOD}: {REPORT}".encode(), "")
    finally:
        os.close(folder)


def test_a_name_with_a_hyphen(run, tmp_path):
    (tmp_path / "-x").write_bytes(GOOD.read_bytes())
    assert run("check", "--", "-x", cwd=tmp_path) == (0, f"-x: {REPORT}".encode(), "")


def test_goes_on(run, tmp_path):
    """Each of these stands before, between and behind good files."""
    (tmp_path / "folder").mkdir()
    (tmp_path / "dangling").symlink_to("nowhere")
    (tmp_path / "circle").symlink_to("circle")
    unread = [tmp_path / name for name in ("absent", "folder", "dangling", "circle", "good/below", "x" * 300)]
    good = tmp_path / "good"
    good.write_bytes(GOOD.read_bytes())
    words = [good]
    for path in unread:
        words += [path, good]
    printed = "".join(f"{path}: read failed\n" for path in unread)
    tally = f"mvt: {len(words)} tiles: {len(unread) + 1} accepted, 0 refused, {len(unread)} unread\n"
    assert run("check", *words) == (3, f"{good}: {REPORT}".encode() * (len(unread) + 1), printed + tally)


def test_closes(run, tmp_path):
    """5,000 files, of which 64 may be open."""
    good = tmp_path / "many"
    good.write_bytes(GOOD.read_bytes())

    def limit():
        resource.setrlimit(resource.RLIMIT_NOFILE, (FEW, FEW))

    answer = run("check", *[good, tmp_path / "none"] * 2_500, preexec_fn=limit)
    assert answer.status == 3
    assert answer.output == f"{good}: {REPORT}".encode() * 2_500
    assert answer.errors.endswith("mvt: 5000 tiles: 2500 accepted, 0 refused, 2500 unread\n")


def test_writes_once(mvt, tmp_path):
    """A pipe of packets hands out what each write put in."""
    empty = tmp_path / "empty"
    empty.write_bytes(b"")
    tiles = [*sorted(TILES.glob("*.mvt")), empty]
    receiving, sending = os.pipe2(os.O_DIRECT | os.O_CLOEXEC)
    fcntl.fcntl(sending, fcntl.F_SETPIPE_SZ, 1 << 20)
    with subprocess.Popen([mvt, "check", *map(str, tiles)], stdout=sending, stderr=subprocess.DEVNULL):
        os.close(sending)
        packets = []
        while packet := os.read(receiving, 1 << 16):
            packets.append(packet.decode())
    os.close(receiving)
    assert [packet.split(": ")[0] for packet in packets] == [str(path) for path in tiles]
    assert len(packets[-1].splitlines()) == 2
    for packet in packets:
        assert packet.endswith("\n") and all(line.startswith(packet.split(": ")[0]) for line in packet.splitlines())
