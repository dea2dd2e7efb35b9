"""Tiles of a few bytes, and command lines."""

import subprocess
import tempfile

import few_bytes
import pytest
from few_bytes import ONE_POINT, REPORT, UNREAD, encoded, octets

RUNS = [
    pytest.param(words, tile, wanted, id=f"{number}-{'-'.join(words)}")
    for number, (words, tile, wanted) in enumerate(few_bytes.runs())
]


@pytest.mark.parametrize("words, tile, wanted", RUNS)
def test_tile(run, words, tile, wanted):
    status, output, told = wanted
    assert run(*words, tile=octets(tile)) == (status, encoded(output), told)


def test_without_words(mvt):
    """Not even the name of the program, which the system needn't hand over."""
    done = subprocess.run([], executable=mvt, input=octets(ONE_POINT), capture_output=True)
    assert (done.returncode, done.stdout, done.stderr) == (0, REPORT.encode(), b"")


@pytest.mark.parametrize("words", UNREAD, ids="-".join)
def test_refused_line(run, words):
    """Nothing of the input is read."""
    with tempfile.TemporaryFile() as file:
        file.write(octets(ONE_POINT))
        file.seek(0)
        status, output, told = run(*words, stdin=file)
        assert (status, output, file.seek(0, 1)) == (2, b"", 0)
        assert told
