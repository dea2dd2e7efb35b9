"""The hosts and the address under which all is published stand in packaging/names alone. Go's module path is the one that go.mod
has: packaging/go writes another in its place."""

import re
import subprocess
from pathlib import Path

TOP = Path(__file__).resolve().parents[2]
HOST = re.compile(r"(?:https?://|@|\.)[\w.-]*huranvi\.example")


def named():
    """The files with a host that is nobody's."""
    files = subprocess.run(["git", "ls-files", "-z"], cwd=TOP, capture_output=True, text=True).stdout.split("\0")
    for name in filter(None, files):
        path = TOP / name
        if (
            path.suffix in ("", ".md", ".toml", ".py", ".go", ".json")
            and path.is_file()
            and not name.startswith(("crates/", "tests/source"))
        ):
            if HOST.search(path.read_text(errors="replace")):
                yield name


def test_one_file():
    assert list(named()) in (["packaging/names"], [])


def test_what_packaging_reads():
    names = dict(
        line.split("=", 1) for line in (TOP / "packaging/names").read_text().splitlines() if not line.startswith("#")
    )
    assert set(names) == {"repository", "maintainer", "go_module"}
    assert (TOP / "library/go/go.mod").read_text().startswith("module ")
