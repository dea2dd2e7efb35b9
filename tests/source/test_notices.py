"""THIRD-PARTY.md and Debian's copyright name each crate of others that crates.txt links, and each packs what has their code."""

import re
from pathlib import Path

TOP = Path(__file__).resolve().parents[2]
# What the toolchain has of its own.
ITS_OWN = {"core", "json", "std_alloc", "std_heap", "staticlib"}


def linked():
    """The crates of others that crates.txt names."""
    words = re.findall(r"[\w]+", re.sub(r"#.*", "", (TOP / "crates.txt").read_text()))
    return {word for word in words if not word.startswith("mvt_")} - ITS_OWN


def told():
    return set(re.findall(r"^\| (\w+) \|", (TOP / "THIRD-PARTY.md").read_text(), re.M)) - {"Crate"}


def test_each_has_a_notice():
    assert linked() and linked() <= told()


def test_the_same_in_debian():
    assert set(re.findall(r"\blinked/(\w+)", (TOP / "packaging/debian/copyright").read_text())) == told()


def test_each_artifact_has_it():
    for name in ("build", "wheel", "crates", "go"):
        assert "THIRD-PARTY.md" in (TOP / "packaging" / name).read_text(), name
