"""The output of each command: all of it is written, or the command says that it isn't; and an input that doesn't wait."""

import fcntl
import os
import resource
import subprocess
import sys
from pathlib import Path

import pytest

TOP = Path(__file__).resolve().parents[2]
TOWN = TOP / "fixtures" / "tiles" / "gdal.mvt"
# With it Python holds nothing back, as in many container images.
HELD = [pytest.param({}, id="held back"), pytest.param({"PYTHONUNBUFFERED": "1"}, id="not held back")]


def commands(room):
    """Commands that write more than a pipe of a page holds, and a tile that isn't looked at."""
    (room / "tile").write_bytes(b"\x1a" * 243_497)
    tree = room / "tree" / "0" / "0"
    tree.mkdir(parents=True)
    (tree / "0.mvt").write_bytes(TOWN.read_bytes())
    yield ["mvt_tools.tile", room / "tile"]
    yield ["mvt_tools.geojson", TOWN, "14/8192/8191"]
    yield ["mvt_tools.audit", room / "tree", "--into", room / "audit", "--json", "--workers", "1"]
    for name in ("tile", "geojson", "page"):
        yield [f"mvt_tools.{name}", "--help"]


def run(words, env, **how):
    command = [sys.executable, "-m", *map(str, words)]
    return subprocess.run(command, env={**os.environ, **env}, stderr=subprocess.PIPE, timeout=120, **how)


def is_told(done):
    """The command has told in a line that not all of it is there."""
    lines = [line for line in done.stderr.decode().splitlines() if "judged already" not in line]
    return done.returncode == 3 and len(lines) == 1 and ": the output can't be written: " in lines[0]


@pytest.mark.parametrize("env", HELD)
@pytest.mark.parametrize("number", range(6))
def test_all_of_it_or_a_line(number, env, tmp_path):
    words = list(commands(tmp_path))[number]
    whole = run(words, env, stdout=subprocess.PIPE)
    assert whole.returncode == 0 and whole.stdout
    # A pipe that takes some bytes and no more, without anybody waiting for it to take them.
    end, begin = os.pipe()
    try:
        os.set_blocking(begin, False)
        fcntl.fcntl(begin, fcntl.F_SETPIPE_SZ, 4096)
        os.write(begin, b" " * (4096 - len(whole.stdout) // 2 % 4096))
        assert is_told(run(words, env, stdout=begin))
    finally:
        os.close(end)
        os.close(begin)


@pytest.mark.parametrize("env", HELD)
@pytest.mark.parametrize("number", [0, 1])
def test_a_full_disk(number, env, tmp_path):
    words = list(commands(tmp_path))[number]
    whole = run(words, env, stdout=subprocess.PIPE).stdout
    for room in (0, len(whole) // 2, len(whole) - 2, len(whole) - 1):
        with open(tmp_path / "out", "wb") as out:
            full = lambda: resource.setrlimit(resource.RLIMIT_FSIZE, (room, room))  # noqa: E731
            assert is_told(run(words, env, stdout=out, preexec_fn=full)), room
        assert (tmp_path / "out").read_bytes() == whole[:room]


@pytest.mark.parametrize("env", HELD)
def test_what_the_outputs_letters_lack_is_spelled(env, tmp_path):
    letters = {**env, "PYTHONIOENCODING": "ascii"}
    done = run(["mvt_tools.geojson", "--help"], letters, stdout=subprocess.PIPE)
    assert done.returncode == 0 and done.stdout.isascii()


def test_an_input_that_does_not_wait():
    end, begin = os.pipe()
    try:
        os.set_blocking(end, False)
        for name, words in (("geojson", ["0/0/0"]), ("tile", ["-"])):
            done = run([f"mvt_tools.{name}", *words], {}, stdin=end, stdout=subprocess.PIPE)
            assert (done.returncode, done.stdout) == (3, b"")
            assert done.stderr.decode() == f"mvt-{name}: the input has nothing yet, and doesn't wait\n"
    finally:
        os.close(end)
        os.close(begin)
