"""What a run of pytest shares with its workers (room.py)."""

import os
import shutil
import sys
import tempfile
from pathlib import Path

import pytest

sys.path.insert(0, str(Path(__file__).parent))


@pytest.hookimpl(tryfirst=True)
def pytest_cmdline_main(config):
    """Tests of one group go to one worker."""
    if getattr(config.option, "numprocesses", None) and config.option.dist == "no":
        config.option.dist = "loadgroup"


@pytest.hookimpl(tryfirst=True)
def pytest_configure(config):
    config.addinivalue_line("markers", "xdist_group(name): one worker has all tests of a group")
    if "MVT_ROOM" not in os.environ:
        config.stash["room"] = os.environ["MVT_ROOM"] = tempfile.mkdtemp(prefix="mvt-tests-")


def pytest_unconfigure(config):
    if room := config.stash.get("room", None):
        del os.environ["MVT_ROOM"]
        shutil.rmtree(room, ignore_errors=True)
