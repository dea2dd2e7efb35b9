"""All sources but Rattle's stand as tests/format leaves them (test_format.py has Rattle's)."""

import subprocess
from pathlib import Path

import pytest

TOP = Path(__file__).resolve().parents[2]


@pytest.mark.parametrize("language", ["python", "c", "javascript", "rust", "go"])
def test_layout(language):
    told = subprocess.run([TOP / "tests/format", "--check", language], capture_output=True, text=True)
    if told.returncode == 3:
        pytest.skip(told.stdout.strip())
    assert (told.returncode, told.stdout) == (0, ""), told.stdout + told.stderr


def test_another_language():
    told = subprocess.run([TOP / "tests/format", "perl"], capture_output=True, text=True)
    assert told.returncode == 2 and "tests/format [--check]" in told.stderr
