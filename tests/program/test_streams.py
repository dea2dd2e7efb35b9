"""What no contract can say of the program: the arguments that the system hands over, and standard streams that fail."""

import os
import subprocess
from pathlib import Path

import pytest

TOP = Path(__file__).resolve().parents[2]
POINT = (TOP / "fixtures" / "tiles" / "point.mvt").read_bytes()
COMMANDS = ["fields", "show", "check", "explain", "rewrite", "mend", "extract a"]


@pytest.fixture
def folder():
    """A folder can be opened as standard input, and fails when it is read."""
    opened = os.open(TOP / "fixtures", os.O_RDONLY)
    yield opened
    os.close(opened)


@pytest.fixture
def full():
    """A full device takes no byte."""
    with open("/dev/full", "wb", buffering=0) as device:
        yield device


@pytest.mark.parametrize(
    "words", [[b"\xff"], [b"check", b"\xff"], [b"extract", b"a", b"\xc3("], [b"extract", b"\xed\xa0\x80"]]
)
def test_not_utf8(mvt, words):
    """Any argument, also a name of a layer, refuses the line before anything is read."""
    done = subprocess.run([mvt, *words], input=POINT, capture_output=True)
    assert (done.returncode, done.stdout, done.stderr) == (2, b"", b"error: an argument isn't UTF-8\n")


@pytest.mark.parametrize("command", COMMANDS)
def test_unreadable(run, folder, command):
    assert run(*command.split(), stdin=folder) == (3, b"", "mvt: read failed\n")


@pytest.mark.parametrize("command", COMMANDS)
def test_full(mvt, full, command):
    done = subprocess.run([mvt, *command.split()], input=POINT, stdout=full, stderr=subprocess.PIPE)
    assert (done.returncode, done.stderr) == (3, b"mvt: write failed\n")


@pytest.mark.parametrize(
    "words, tile, status", [(["check"], b"\x1b", 1), (["frob"], POINT, 2)], ids=["a tile", "a line"]
)
def test_nowhere_to_tell_what_is_refused(mvt, full, words, tile, status):
    """A fault of the error stream is ignored: the status is that of the tile, of the line, or of the input."""
    done = subprocess.run([mvt, *words], input=tile, stdout=subprocess.PIPE, stderr=full)
    assert (done.returncode, done.stdout) == (status, b"")


def test_nowhere_to_tell_what_is_unreadable(mvt, full, folder):
    done = subprocess.run([mvt, "show"], stdin=folder, stdout=subprocess.PIPE, stderr=full)
    assert (done.returncode, done.stdout) == (3, b"")
