"""The program that is tested: $MVT, or the one that `rt run` or `rt ci` left."""

import os
import subprocess
from pathlib import Path
from typing import NamedTuple

import pytest

TOP = Path(__file__).resolve().parents[2]


class Answer(NamedTuple):
    status: int
    output: bytes
    errors: str


@pytest.fixture(scope="session")
def mvt():
    program = Path(os.environ.get("MVT", TOP / "crates/mvt_cli/out/mvt_cli")).resolve()
    assert program.exists(), f"{program} isn't there: `rt run` in crates/mvt_cli proves and builds it"
    return str(program)


@pytest.fixture(scope="session")
def run(mvt):
    """run(WORD.., tile=b""): what the program answers to these words, with the tile on standard input."""

    def answered(*words, tile=b"", **how):
        if "stdin" not in how:
            how["input"] = tile
        done = subprocess.run(
            [mvt, *map(str, words)], stdout=subprocess.PIPE, stderr=subprocess.PIPE, timeout=300, **how
        )
        return Answer(done.returncode, done.stdout, done.stderr.decode())

    return answered
