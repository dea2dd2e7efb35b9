"""What tests/quick makes of what the toolchain says, over an `rt` that only says it, and of a library that isn't built."""

import os
import subprocess
from pathlib import Path

TOP = Path(__file__).resolve().parents[2]


def quick(folder, said, status, *names):
    """The status and the lines of tests/quick, where `rt` says this and ends so."""
    rt = folder / "bin" / "rt"
    rt.parent.mkdir()
    rt.write_text(f"#!/usr/bin/env bash\ncat <<'SAID'\n{said}\nSAID\nexit {status}\n")
    rt.chmod(0o755)
    environment = {**os.environ, "PATH": f"{rt.parent}:{os.environ['PATH']}", "BUILT": str(folder), "JOBS": "1"}
    done = subprocess.run([TOP / "tests/quick", *names], capture_output=True, text=True, env=environment, timeout=120)
    return done.returncode, done.stdout.splitlines()


def test_each_test_by_its_name(tmp_path):
    said = "test tile::a ... ok\ntest tile::b ... ok\ntest result: ok. 2 passed; 4 filtered out"
    assert quick(tmp_path, said, 0, "mvt_tile_tests") == (
        0,
        [
            "mvt_tile_tests: tile::a ... ok",
            "mvt_tile_tests: tile::b ... ok",
            "left out: 4 tests in modules 'slow', which 'rt ci' runs",
            "quick: 2 passed, 0 failed, 0 skipped",
        ],
    )


def test_a_test_that_fails(tmp_path):
    status, lines = quick(tmp_path, "test a ... ok\nit is 5, wanted 6\ntest b ... FAILED", 1, "mvt_base")
    assert status == 1 and lines[-1] == "quick: 1 passed, 1 failed, 0 skipped"
    assert "it is 5, wanted 6" in lines


def test_a_crate_that_does_not_compile(tmp_path):
    status, lines = quick(tmp_path, "error: no such name", 1, "mvt_base")
    assert status == 1 and lines == [
        "error: no such name",
        "mvt_base: its tests ... FAILED",
        "quick: 0 passed, 1 failed, 0 skipped",
    ]


def test_cases_of_the_program(tmp_path):
    said = "case=one status=0 output=expected\ncase=two status=0 output=differs"
    status, lines = quick(tmp_path, said, 5, "program")
    assert status == 1 and lines[-1] == "quick: 1 passed, 1 failed, 0 skipped"
    assert "mvt_cli: one ... ok" in lines and "mvt_cli: two ... FAILED" in lines


def test_no_library(tmp_path):
    assert quick(tmp_path, "", 0, "library") == (
        0,
        ["library: library/build hasn't built it ... skipped", "quick: 0 passed, 0 failed, 1 skipped"],
    )
